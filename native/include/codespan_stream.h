/* codespan_stream.h: whether a stream is to be colored, as users of a terminal expect.
 *
 * POSIX: define _POSIX_C_SOURCE as 200809L, or compile with -std=gnu11 or gnu++17, so that
 * <stdio.h> declares fileno.
 */
#ifndef CODESPAN_STREAM_H
#define CODESPAN_STREAM_H

#include <codespan.h>
#include <stdio.h>
#include <stdlib.h>
#include <string.h>
#include <unistd.h>

#ifdef __cplusplus
extern "C" {
#endif

/* Returns the value of a variable of the environment, or NULL where it is unset or empty. */
static inline const char *codespan_set_variable(const char *name) {
    const char *value = getenv(name);
    return value == NULL || *value == '\0' ? NULL : value;
}

/* Returns 1 where output to the stream is to be colored, and 0 otherwise. It is colored where the
 * stream is a terminal, TERM is not `dumb`, and NO_COLOR is unset or empty; and where
 * CLICOLOR_FORCE is set, and is neither empty nor 0. */
static inline int codespan_stream_has_colors(FILE *stream) {
    const char *forced = codespan_set_variable("CLICOLOR_FORCE");
    const char *term = codespan_set_variable("TERM");
    if (forced != NULL && strcmp(forced, "0") != 0)
        return 1;
    return codespan_set_variable("NO_COLOR") == NULL &&
           (term == NULL || strcmp(term, "dumb") != 0) && isatty(fileno(stream)) == 1;
}

/* Returns the default configuration, with colors where output to the stream is to be colored. */
static inline codespan_config codespan_stream_config(FILE *stream) {
    codespan_config config = codespan_default_config();
    config.color_mode =
        codespan_stream_has_colors(stream) ? CODESPAN_DEFAULT_STYLES : CODESPAN_COLORS_OFF;
    return config;
}

#ifdef __cplusplus
}
#endif
#endif
