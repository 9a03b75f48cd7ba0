/* What the C tests share: a check that names its line, and one call of the library. */
#ifndef CHECK_H
#define CHECK_H

#include <codespan.h>
#include <stdbool.h>
#include <stdio.h>
#include <stdlib.h>

/* Ends the test with status 1 unless the condition holds. */
#define CHECK(condition)                                                                           \
    do {                                                                                           \
        if (!(condition))                                                                          \
            check_failed(__FILE__, __LINE__, #condition);                                          \
    } while (0)

static inline void check_failed(const char *file, int line, const char *condition) {
    fprintf(stderr, "%s:%d: not true: %s\n", file, line, condition);
    exit(1);
}

/* The arguments of a call. */
struct call {
    const codespan_file *files;
    size_t files_length;
    const codespan_diagnostic *diagnostic;
    const codespan_config *config;
};

/* What a call returned. */
struct outcome {
    uint32_t status;
    size_t written;
    codespan_detail detail;
};

static inline struct outcome emit(const struct call *call, uint8_t *out, size_t capacity) {
    /* values that no call returns, so that a test sees one that is not set */
    struct outcome outcome = {UINT32_MAX, SIZE_MAX, {UINT32_MAX, SIZE_MAX}};
    outcome.status = codespan_emit(call->files, call->files_length, call->diagnostic, call->config,
                                   out, capacity, &outcome.written, &outcome.detail);
    return outcome;
}

/* The byte that buffers are filled with before a call. */
enum { UNWRITTEN = 0xee };

/* Whether all these bytes are still as filled: the first one is, and each one is as the next. */
static inline bool is_unwritten(const uint8_t *bytes, size_t length) {
    return length == 0 || (bytes[0] == UNWRITTEN && memcmp(bytes, bytes + 1, length - 1) == 0);
}

#endif
