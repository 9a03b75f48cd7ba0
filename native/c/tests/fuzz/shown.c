#include "shown.h"
#include "replay.h"
#include <stdlib.h>

/* The first and the last character of a range. */
struct range {
    uint32_t first, last;
};

/* Characters that are left out: control characters but tab and newline, directional controls, and
 * characters that terminals show in some cells. */
static const struct range LEFT_OUT[] = {
    {0x00, 0x08},     {0x0b, 0x1f},     {0x7f, 0x9f},     {0xad, 0xad},
    {0x61c, 0x61c},   {0x200d, 0x200f}, {0x202a, 0x202e}, {0x2066, 0x2069},
    {0x3164, 0x3164}, {0xfeff, 0xfeff}, {0xffa0, 0xffa0},
};

/* Characters that are replaced, besides the last two of each plane. */
static const struct range REPLACED[] = {
    {0x2028, 0x2029},
    {0xfdd0, 0xfdef},
    {0xfff9, 0xfffb},
};

#define IS_IN(point, ranges) is_in(point, ranges, sizeof(ranges) / sizeof(ranges)[0])

static bool is_in(uint32_t point, const struct range *ranges, size_t count) {
    for (size_t i = 0; i < count; i++)
        if (point >= ranges[i].first && point <= ranges[i].last)
            return true;
    return false;
}

/* Returns the code point of a character of this length. */
static uint32_t code_point(const uint8_t *bytes, size_t length) {
    uint32_t point = length == 1 ? bytes[0] : bytes[0] & (0x7fu >> length);
    for (size_t i = 1; i < length; i++)
        point = point << 6 | (bytes[i] & 0x3fu);
    return point;
}

/* Writes what is shown for a character, and returns its length. */
static size_t show(const uint8_t *bytes, size_t length, uint8_t *out) {
    static const uint8_t replacement[] = {0xef, 0xbf, 0xbd};
    uint32_t point = code_point(bytes, length);
    if (IS_IN(point, LEFT_OUT))
        return 0;
    if (IS_IN(point, REPLACED) || (point & 0xffff) >= 0xfffe) {
        memcpy(out, replacement, sizeof replacement);
        return sizeof replacement;
    }
    memmove(out, bytes, length);
    return length;
}

size_t make_safe(const uint8_t *marked, size_t length, uint8_t *out) {
    size_t written = 0;
    for (size_t i = 0; i < length;) {
        if (marked[i] == CODESPAN_STYLE_MARK_BYTE) {
            out[written++] = marked[i++];
            out[written++] = marked[i++];
            continue;
        }
        size_t size = character_length(marked + i, length - i);
        if (size == 0)
            abort();
        written += show(marked + i, size, out + written);
        i += size;
    }
    return written;
}

/* The entities, with what they stand for. */
static const struct {
    const char *entity;
    uint8_t character;
} ENTITIES[] = {{"&amp;", '&'}, {"&lt;", '<'}, {"&gt;", '>'}, {"&quot;", '"'}, {"&#39;", 39}};

/* Reads an entity back, and returns its length. */
static size_t read_entity(const uint8_t *markup, size_t length, uint8_t *character) {
    for (size_t k = 0; k < sizeof ENTITIES / sizeof ENTITIES[0]; k++) {
        size_t size = strlen(ENTITIES[k].entity);
        if (size <= length && memcmp(markup, ENTITIES[k].entity, size) == 0) {
            *character = ENTITIES[k].character;
            return size;
        }
    }
    abort();
}

size_t read_markup(const uint8_t *markup, size_t length, uint8_t *out) {
    size_t written = 0;
    for (size_t i = 0; i < length;) {
        if (markup[i] == '<') {
            while (i < length && markup[i] != '>')
                i++;
            i++;
        } else if (markup[i] == '&') {
            i += read_entity(markup + i, length - i, &out[written++]);
        } else {
            out[written++] = markup[i++];
        }
    }
    return written;
}
