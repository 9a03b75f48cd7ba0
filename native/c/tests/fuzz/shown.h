/* What is shown of a text: of a marked output in safe text, and by a reader of HTML or SVG. */
#ifndef SHOWN_H
#define SHOWN_H

#include <codespan.h>

/* Writes a marked output with what is shown for its characters, and its style marks. Returns its
 * length, at most that of `marked`, since no character that is replaced is shorter than U+FFFD. */
size_t make_safe(const uint8_t *marked, size_t length, uint8_t *out);

/* Writes what is outside the tags of an element, its entities read back. Returns its length, at
 * most that of `markup`. */
size_t read_markup(const uint8_t *markup, size_t length, uint8_t *out);

#endif
