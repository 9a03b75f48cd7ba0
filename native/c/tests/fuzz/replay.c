#include "replay.h"
#include <stdio.h>
#include <stdlib.h>

/* Returns the style of a style mark other than the reset. */
static codespan_color_spec style_of(const codespan_styles *styles, uint8_t mark) {
    const codespan_color_spec headers[] = {styles->header_help, styles->header_note,
                                           styles->header_warning, styles->header_error,
                                           styles->header_bug};
    const codespan_color_spec labels[] = {styles->primary_label_help, styles->primary_label_note,
                                          styles->primary_label_warning,
                                          styles->primary_label_error, styles->primary_label_bug};
    if (mark < CODESPAN_STYLE_MARK_HEADER_MESSAGE)
        return headers[mark - CODESPAN_STYLE_MARK_HEADER];
    if (mark >= CODESPAN_STYLE_MARK_PRIMARY_LABEL && mark < CODESPAN_STYLE_MARK_SECONDARY_LABEL)
        return labels[mark - CODESPAN_STYLE_MARK_PRIMARY_LABEL];
    switch (mark) {
    case CODESPAN_STYLE_MARK_HEADER_MESSAGE:
        return styles->header_message;
    case CODESPAN_STYLE_MARK_LINE_NUMBER:
        return styles->line_number;
    case CODESPAN_STYLE_MARK_NOTE_BULLET:
        return styles->note_bullet;
    case CODESPAN_STYLE_MARK_SOURCE_BORDER:
        return styles->source_border;
    default:
        return styles->secondary_label;
    }
}

/* Writes the escape sequence of a color: `layer` is 3 for the text and 4 for the background. */
static int color_sequence(char *sequence, size_t capacity, int layer, uint32_t color,
                          uint32_t intense) {
    if (color == CODESPAN_NO_COLOR)
        return 0;
    unsigned number = color - CODESPAN_BLACK;
    if (intense != 0)
        return snprintf(sequence, capacity, "\033[%d8;5;%um", layer, number + 8);
    return snprintf(sequence, capacity, "\033[%d%um", layer, number);
}

/* Writes the escape sequences of a style mark, and returns their length. */
static size_t mark_sequence(char *sequence, size_t capacity, const codespan_styles *styles,
                            uint8_t mark) {
    int length = snprintf(sequence, capacity, "\033[0m");
    if (mark == CODESPAN_STYLE_MARK_RESET)
        return length;
    codespan_color_spec style = style_of(styles, mark);
    if (style.bold != 0)
        length += snprintf(sequence + length, capacity - length, "\033[1m");
    length += color_sequence(sequence + length, capacity - length, 3, style.fg, style.intense);
    length += color_sequence(sequence + length, capacity - length, 4, style.bg, style.intense);
    return length;
}

size_t remove_style_marks(const uint8_t *marked, size_t length, uint8_t *out) {
    size_t written = 0;
    for (size_t i = 0; i < length; i++) {
        if (marked[i] == CODESPAN_STYLE_MARK_BYTE)
            i++;
        else
            out[written++] = marked[i];
    }
    return written;
}

size_t replay(const uint8_t *marked, size_t length, const codespan_styles *styles, uint8_t *out,
              size_t capacity) {
    size_t written = 0;
    for (size_t i = 0; i < length; i++) {
        char sequence[64];
        size_t sequence_length = 1;
        if (marked[i] != CODESPAN_STYLE_MARK_BYTE)
            sequence[0] = (char)marked[i];
        else if (i + 1 == length || marked[i + 1] < CODESPAN_STYLE_MARK_HEADER ||
                 marked[i + 1] > CODESPAN_STYLE_MARK_RESET)
            abort();
        else
            sequence_length = mark_sequence(sequence, sizeof sequence, styles, marked[++i]);
        for (size_t k = 0; k < sequence_length; k++, written++)
            if (written < capacity)
                out[written] = (uint8_t)sequence[k];
    }
    return written;
}

size_t character_length(const uint8_t *bytes, size_t length) {
    static const uint32_t least[] = {0, 0, 0x80, 0x800, 0x10000};
    uint8_t first = bytes[0];
    size_t size = first < 0x80 ? 1 : first < 0xc0 ? 0 : first < 0xe0 ? 2 : first < 0xf0 ? 3 : 4;
    if (size < 2 || first >= 0xf8 || size > length)
        return size == 1 ? 1 : 0;
    uint32_t point = first & (0x7fu >> size);
    for (size_t i = 1; i < size; i++) {
        if ((bytes[i] & 0xc0) != 0x80)
            return 0;
        point = point << 6 | (bytes[i] & 0x3fu);
    }
    bool is_scalar = point <= 0x10ffff && (point < 0xd800 || point > 0xdfff);
    return is_scalar && point >= least[size] ? size : 0;
}

bool is_utf8(const uint8_t *bytes, size_t length) {
    while (length > 0) {
        size_t size = character_length(bytes, length);
        if (size == 0)
            return false;
        bytes += size;
        length -= size;
    }
    return true;
}
