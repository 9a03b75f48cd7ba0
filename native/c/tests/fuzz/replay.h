/* The forms of text of one output: a marked one without its style marks is the plain one, and with
 * each style mark replaced by escape sequences it is one of those in color. */
#ifndef REPLAY_H
#define REPLAY_H

#include <codespan.h>
#include <stdbool.h>

/* Writes the plain output of a marked one. Returns its length, at most `length`. */
size_t remove_style_marks(const uint8_t *marked, size_t length, uint8_t *out);

/* Writes the output in these styles of a marked one, as much of it as `capacity` bytes hold.
 * Returns its length. */
size_t replay(const uint8_t *marked, size_t length, const codespan_styles *styles, uint8_t *out,
              size_t capacity);

/* Returns the length of the character that these bytes begin with, 0 where it is none. */
size_t character_length(const uint8_t *bytes, size_t length);

/* Returns whether these bytes are UTF-8. */
bool is_utf8(const uint8_t *bytes, size_t length);

#endif
