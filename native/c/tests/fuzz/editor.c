#include "editor.h"
#include "replay.h"
#include <codespan_editor.h>

/* Leaves the function with a text that says which condition does not hold. */
#define HOLD(condition)                                                                            \
    do {                                                                                           \
        if (!(condition))                                                                          \
            return #condition;                                                                     \
    } while (0)

enum { EDITS_MAX = 4, TEXT_MAX = 1 << 13 };

/* ---- positions ---- */

/* A line of a source: its index, and its bytes. */
struct line {
    size_t index, start, end;
};

static size_t in_source(const codespan_file *file, size_t byte) {
    return byte < file->first_byte ? 0 : byte - file->first_byte;
}

/* Finds the line of an index, by the lines of the caller or by newlines. */
static bool find_line(const codespan_file *file, size_t index, struct line *line) {
    const codespan_text *source = &file->source;
    if (file->lines_length > 0) {
        if (index >= file->lines_length)
            return false;
        *line = (struct line){index, in_source(file, file->lines[index].start),
                              in_source(file, file->lines[index].end)};
        return true;
    }
    size_t start = 0, end = 0;
    for (size_t at = 0;; at++) {
        while (end < source->length && source->bytes[end++] != '\n') {
        }
        bool is_last = end == source->length && (end == start || source->bytes[end - 1] != '\n');
        if (at == index) {
            *line = (struct line){index, start, end};
            return true;
        }
        if (is_last)
            return false;
        start = end;
    }
}

/* The code units of a character of this length. */
static size_t units_of(uint32_t encoding, size_t length) {
    if (encoding == CODESPAN_UTF8)
        return length;
    return encoding == CODESPAN_UTF16 && length == 4 ? 2 : 1;
}

/* Where a walk over a line ends, by the first of two limits. */
struct walk {
    size_t byte, units;
};

static struct walk walk_line(const codespan_file *file, uint32_t encoding, struct line line,
                             size_t byte_limit, size_t unit_limit) {
    struct walk walk = {line.start, 0};
    while (walk.byte < line.end && walk.byte < byte_limit && walk.units < unit_limit) {
        size_t length =
            character_length(file->source.bytes + walk.byte, file->source.length - walk.byte);
        if (walk.byte + length > byte_limit || walk.units + units_of(encoding, length) > unit_limit)
            break;
        walk.byte += length;
        walk.units += units_of(encoding, length);
    }
    return walk;
}

static bool is_detail(codespan_detail detail, uint32_t argument, size_t index) {
    return detail.argument == argument && detail.index == index;
}

/* Compares the position of a byte, of a valid file. */
static const char *position_fault(const codespan_file *file, uint32_t encoding, size_t byte) {
    codespan_editor_position position = {7, 7};
    codespan_detail detail = {7, 7};
    uint32_t status = codespan_position(file, encoding, byte, &position, &detail);
    struct line line = {0, 0, 0}, next;
    size_t at = in_source(file, byte);
    HOLD(find_line(file, 0, &line));
    while (find_line(file, line.index + 1, &next) && next.start <= at)
        line = next;
    struct walk walk = walk_line(file, encoding, line, at, SIZE_MAX);
    if (status == CODESPAN_OK) {
        HOLD(walk.byte == at && position.character == walk.units);
        HOLD(position.line - line.index == file->first_line);
        HOLD(is_detail(detail, CODESPAN_ARGUMENT_NONE, 0));
        return NULL;
    }
    HOLD(status == CODESPAN_INVALID && position.line == 0 && position.character == 0);
    if (at > line.end)
        HOLD(is_detail(detail, CODESPAN_ARGUMENT_COLUMN_TOO_LARGE, line.end - line.start));
    else if (walk.byte != at)
        HOLD(is_detail(detail, CODESPAN_ARGUMENT_CHAR_BOUNDARY, 0));
    else
        HOLD(is_detail(detail, CODESPAN_ARGUMENT_LINE_TOO_LARGE, 0) &&
             file->first_line > UINT32_MAX - line.index);
    return NULL;
}

/* Compares the byte of a position, of a valid file. */
static const char *byte_fault(const codespan_file *file, uint32_t encoding,
                              codespan_editor_position position) {
    size_t byte = 7;
    codespan_detail detail = {7, 7};
    uint32_t status = codespan_byte(file, encoding, &position, &byte, &detail);
    HOLD(status == CODESPAN_OK || (status == CODESPAN_INVALID && byte == 0));
    struct line line;
    if (position.line < file->first_line ||
        !find_line(file, position.line - file->first_line, &line)) {
        HOLD(status == CODESPAN_INVALID);
        HOLD(is_detail(detail, CODESPAN_ARGUMENT_LINE_TOO_LARGE, 0));
        return NULL;
    }
    struct walk walk = walk_line(file, encoding, line, SIZE_MAX, position.character);
    if (walk.units == position.character) {
        bool fits = walk.byte <= SIZE_MAX - file->first_byte;
        HOLD(status == CODESPAN_OK && is_detail(detail, CODESPAN_ARGUMENT_NONE, 0));
        HOLD(byte == (fits ? file->first_byte + walk.byte : SIZE_MAX));
        return NULL;
    }
    HOLD(status == CODESPAN_INVALID);
    if (walk.byte == line.end)
        HOLD(is_detail(detail, CODESPAN_ARGUMENT_COLUMN_TOO_LARGE, walk.units));
    else
        HOLD(is_detail(detail, CODESPAN_ARGUMENT_CHAR_BOUNDARY, 0));
    return NULL;
}

/* A file that may be invalid: the statuses, and what is set. */
static const char *any_file_fault(const codespan_file *file, uint32_t encoding, size_t byte) {
    codespan_editor_position position = {7, 7};
    codespan_detail detail = {7, 7};
    uint32_t status = codespan_position(file, encoding, byte, &position, &detail);
    HOLD(status == CODESPAN_OK || status == CODESPAN_INVALID);
    HOLD((status == CODESPAN_OK) == (detail.argument == CODESPAN_ARGUMENT_NONE));
    HOLD(status == CODESPAN_OK || (position.line == 0 && position.character == 0));
    position.line = (uint32_t)byte;
    status = codespan_byte(file, encoding, &position, &byte, &detail);
    HOLD(status == CODESPAN_OK || (status == CODESPAN_INVALID && byte == 0));
    HOLD((status == CODESPAN_OK) == (detail.argument == CODESPAN_ARGUMENT_NONE));
    return NULL;
}

static const char *file_fault(const struct fuzz_case *made, const codespan_file *file,
                              struct random *random) {
    size_t byte = one_in(random, 8) ? wide_number(random, 100)
                                    : file->first_byte + below(random, file->source.length + 3);
    uint32_t encoding = (uint32_t)below(random, 3);
    if (!made->is_valid)
        return any_file_fault(file, one_in(random, 8) ? 3 : encoding, byte);
    const char *fault = position_fault(file, encoding, byte);
    if (fault != NULL)
        return fault;
    size_t line = one_in(random, 8) ? wide_number(random, 9) : file->first_line + below(random, 9);
    codespan_editor_position position = {(uint32_t)line, (uint32_t)wide_number(random, 12)};
    return byte_fault(file, encoding, position);
}

/* ---- edits ---- */

/* Whether an edit is before another one of the list, in their order. */
static bool is_before(const codespan_edit *edits, size_t one, size_t other) {
    if (edits[one].start != edits[other].start)
        return edits[one].start < edits[other].start;
    if (edits[one].end != edits[other].end)
        return edits[one].end < edits[other].end;
    return one < other;
}

static bool is_boundary(codespan_text text, size_t byte) {
    return byte == text.length || (text.bytes[byte] & 0xc0) != 0x80;
}

/* Returns what is wrong with the range of an edit, and 0 where nothing is. */
static uint32_t range_argument(codespan_text source, codespan_edit edit) {
    if (edit.end < edit.start)
        return CODESPAN_ARGUMENT_EDIT_REVERSED;
    if (edit.end > source.length)
        return CODESPAN_ARGUMENT_EDIT_PAST_END;
    bool is_valid = is_boundary(source, edit.start) && is_boundary(source, edit.end);
    return is_valid ? 0 : CODESPAN_ARGUMENT_EDIT_BOUNDARY;
}

/* Puts the text after the edits together, or names the first invalid one. */
static codespan_detail edited(codespan_text source, const codespan_edit *edits, size_t count,
                              uint8_t *text, size_t *length) {
    codespan_detail none = {CODESPAN_ARGUMENT_NONE, 0};
    for (size_t i = 0; i < count; i++)
        if (range_argument(source, edits[i]) != 0)
            return (codespan_detail){range_argument(source, edits[i]), i};
    size_t byte = 0, last = count;
    *length = 0;
    for (size_t done = 0; done < count; done++) {
        size_t first = count;
        for (size_t i = 0; i < count; i++)
            if ((last == count || is_before(edits, last, i)) &&
                (first == count || is_before(edits, i, first)))
                first = i;
        if (edits[first].start < byte)
            return (codespan_detail){CODESPAN_ARGUMENT_EDIT_OVERLAP, first};
        for (; byte < edits[first].start; byte++)
            text[(*length)++] = source.bytes[byte];
        for (size_t i = 0; i < edits[first].replacement.length; i++)
            text[(*length)++] = edits[first].replacement.bytes[i];
        byte = edits[first].end;
        last = first;
    }
    for (; byte < source.length; byte++)
        text[(*length)++] = source.bytes[byte];
    return none;
}

static const char *edits_fault(codespan_text source, const codespan_edit *edits, size_t count,
                               uint8_t *out, size_t capacity) {
    static _Thread_local uint8_t text[TEXT_MAX];
    size_t length = 0, written = 7;
    codespan_detail wanted = edited(source, edits, count, text, &length), detail = {7, 7};
    memset(out, UNWRITTEN, capacity);
    uint32_t status = codespan_apply_edits(source.bytes, source.length, edits, count, out, capacity,
                                           &written, &detail);
    HOLD(is_detail(detail, wanted.argument, wanted.index));
    if (wanted.argument != CODESPAN_ARGUMENT_NONE) {
        HOLD(status == CODESPAN_INVALID && written == 0 && is_unwritten(out, capacity));
        return NULL;
    }
    HOLD(written == length);
    if (length > capacity) {
        HOLD(status == CODESPAN_TOO_SMALL && is_unwritten(out, capacity));
        return NULL;
    }
    HOLD(status == CODESPAN_OK && memcmp(out, text, length) == 0);
    HOLD(is_unwritten(out + length, capacity - length));
    return NULL;
}

/* Returns an edit after the byte `from`, mostly a valid one. */
static codespan_edit make_edit(struct random *random, codespan_text source, size_t from,
                               codespan_text replacement) {
    size_t start = from + below(random, 4), end = start + below(random, 4);
    if (one_in(random, 12))
        end = wide_number(random, source.length + 2);
    return codespan_new_edit(start, end, replacement);
}

const char *editor_fault(const struct fuzz_case *made, uint64_t number, struct pages *pages,
                         uint8_t *out, size_t capacity) {
    struct random random = random_of(~number);
    const struct call *call = &made->calls[0];
    for (size_t i = 0; i < call->files_length; i++) {
        const char *fault = file_fault(made, &call->files[i], &random);
        if (fault != NULL)
            return fault;
    }
    if (!made->is_valid || call->files_length == 0)
        return NULL;
    codespan_text source = call->files[0].source;
    codespan_edit edits[EDITS_MAX];
    size_t count = below(&random, EDITS_MAX + 1), from = 0;
    for (size_t i = 0; i < count; i++) {
        bool is_code = one_in(&random, 2);
        edits[i] = make_edit(&random, source, one_in(&random, 6) ? 0 : from,
                             is_code ? call->diagnostic->code : call->diagnostic->message);
        from = edits[i].end;
    }
    const codespan_edit *put_there =
        put(pages, &random, edits, count * sizeof edits[0], _Alignof(size_t));
    size_t room = one_in(&random, 4) ? below(&random, 64) : capacity;
    return edits_fault(source, put_there, count, out + (capacity - room), room);
}
