/* Each allocation of a call fails in turn, alone and with all after it: the call returns
 * CODESPAN_OUT_OF_MEMORY, or the output that it writes where none fails, and frees all that it
 * allocated.
 *
 * Linked with -Wl,--wrap=malloc,--wrap=realloc,--wrap=free, so that the library's calls of these
 * arrive here. */
#include "check.h"
#include <codespan_editor.h>

void *__real_malloc(size_t size);
void *__real_realloc(void *block, size_t size);
void __real_free(void *block);
void *__wrap_malloc(size_t size);
void *__wrap_realloc(void *block, size_t size);
void __wrap_free(void *block);

/* The allocations of one call, counted from 1, and which of them fail. */
static size_t allocations, blocks, first_failed, last_failed;

static bool has_to_fail(void) {
    allocations++;
    return allocations >= first_failed && allocations <= last_failed;
}

void *__wrap_malloc(size_t size) {
    if (has_to_fail())
        return NULL;
    blocks++;
    return __real_malloc(size);
}

void *__wrap_realloc(void *block, size_t size) {
    if (has_to_fail())
        return NULL;
    return __real_realloc(block, size);
}

void __wrap_free(void *block) {
    blocks--;
    __real_free(block);
}

enum { OUT_CAPACITY = 1 << 16 };

/* Has the allocations from `first` to `last` of the next call fail. */
static void fail_from(size_t first, size_t last) {
    allocations = 0;
    blocks = 0;
    first_failed = first;
    last_failed = last;
}

/* Makes a call in which the allocations from `first` to `last` fail. */
static struct outcome emit_failing(const struct call *call, size_t first, size_t last,
                                   uint8_t *out) {
    memset(out, UNWRITTEN, OUT_CAPACITY);
    fail_from(first, last);
    struct outcome outcome = emit(call, out, OUT_CAPACITY);
    CHECK(blocks == 0);
    CHECK(outcome.detail.argument == CODESPAN_ARGUMENT_NONE && outcome.detail.index == 0);
    return outcome;
}

/* Makes each allocation of a call fail, alone or with all after it. Returns how many calls ran out
 * of memory. */
static size_t fail_each(const struct call *call, bool with_later) {
    static uint8_t wanted[OUT_CAPACITY], out[OUT_CAPACITY];
    struct outcome whole = emit_failing(call, SIZE_MAX, 0, wanted);
    CHECK(whole.status == CODESPAN_OK);
    size_t total = allocations, failed = 0;
    for (size_t first = 1; first <= total; first++) {
        struct outcome outcome = emit_failing(call, first, with_later ? SIZE_MAX : first, out);
        if (outcome.status == CODESPAN_OUT_OF_MEMORY) {
            CHECK(outcome.written == 0 && is_unwritten(out, OUT_CAPACITY));
            failed++;
        } else {
            CHECK(outcome.status == CODESPAN_OK && outcome.written == whole.written);
            CHECK(memcmp(out, wanted, OUT_CAPACITY) == 0);
        }
    }
    CHECK(failed > 0);
    return failed;
}

/* A long source: 300 short lines. */
static codespan_text long_source(void) {
    static char source[300 * 8 + 1];
    for (size_t i = 0; i < 300; i++)
        memcpy(source + 8 * i, "let x =\n", 8);
    return codespan_text_from(source);
}

/* Renders over a short file, one with stated lines and locations, and a window of a long one. */
static size_t fail_all(codespan_config *config) {
    codespan_line lines[] = {{0, 4, 7}, {4, 8, 8}, {8, 13, 9}};
    codespan_location locations[] = {{4, 80, 3}};
    codespan_file files[3];
    files[0] =
        codespan_new_file(codespan_text_from("a"), codespan_text_from("one\ntwo\n\tthree\n"));
    files[1] = codespan_new_file(codespan_text_from("b"), codespan_text_from("one\ntwo\nthree"));
    files[1].lines = lines;
    files[1].lines_length = 3;
    files[1].locations = locations;
    files[1].locations_length = 1;
    files[2] = codespan_new_file(codespan_text_from("c"), long_source());
    files[2].first_byte = 1000;
    files[2].first_line = 50;
    codespan_label labels[] = {
        codespan_new_label(CODESPAN_PRIMARY, 0, 1, 9, codespan_text_from("over lines")),
        codespan_new_label(CODESPAN_SECONDARY, 0, 4, 5, codespan_text_from("one line")),
        codespan_new_label(CODESPAN_PRIMARY, 1, 4, 6, codespan_text_from("of given lines")),
        codespan_new_label(CODESPAN_PRIMARY, 2, 1100, 1103, codespan_no_text()),
        codespan_new_label(CODESPAN_SECONDARY, 2, 1200, 3000, codespan_text_from("over many")),
    };
    codespan_text notes[] = {codespan_text_from("a note\nof two lines")};
    codespan_diagnostic diagnostic =
        codespan_new_diagnostic(CODESPAN_ERROR, codespan_text_from("a message"));
    diagnostic.code = codespan_text_from("E1");
    diagnostic.labels = labels;
    diagnostic.labels_length = sizeof labels / sizeof labels[0];
    diagnostic.notes = notes;
    diagnostic.notes_length = 1;
    struct call call = {files, 3, &diagnostic, config};
    return fail_each(&call, false) + fail_each(&call, true);
}

/* ---- calls for editors ---- */

/* Whether a call has returned without a value, since no memory was left; if not it has succeeded.
 */
static bool is_out_of_memory(uint32_t status, codespan_detail detail, bool is_unset) {
    CHECK(blocks == 0 && detail.argument == CODESPAN_ARGUMENT_NONE && detail.index == 0);
    if (status == CODESPAN_OK)
        return false;
    CHECK(status == CODESPAN_OUT_OF_MEMORY && is_unset);
    return true;
}

static bool position_fails(void) {
    codespan_file file = codespan_new_file(codespan_no_text(), long_source());
    codespan_editor_position position = {7, 7};
    codespan_detail detail = {7, 7};
    uint32_t status = codespan_position(&file, CODESPAN_UTF16, 1604, &position, &detail);
    CHECK(status != CODESPAN_OK || (position.line == 200 && position.character == 4));
    return is_out_of_memory(status, detail, position.line == 0 && position.character == 0);
}

static bool byte_fails(void) {
    codespan_file file = codespan_new_file(codespan_no_text(), long_source());
    codespan_editor_position position = {200, 4};
    codespan_detail detail = {7, 7};
    size_t byte = 7;
    uint32_t status = codespan_byte(&file, CODESPAN_UTF16, &position, &byte, &detail);
    CHECK(status != CODESPAN_OK || byte == 1604);
    return is_out_of_memory(status, detail, byte == 0);
}

static bool edits_fail(void) {
    codespan_edit edits[] = {codespan_new_edit(4, 5, codespan_text_from("&y")),
                             codespan_new_edit(0, 0, codespan_text_from("let x = "))};
    static const char wanted[] = "let x = foo(&y)";
    uint8_t out[sizeof wanted];
    codespan_detail detail = {7, 7};
    size_t written = 7;
    memset(out, UNWRITTEN, sizeof out);
    uint32_t status = codespan_apply_edits((const uint8_t *)"foo(y)", 6, edits, 2, out, sizeof out,
                                           &written, &detail);
    CHECK(status != CODESPAN_OK ||
          (written == sizeof wanted - 1 && memcmp(out, wanted, written) == 0));
    return is_out_of_memory(status, detail, written == 0 && is_unwritten(out, sizeof out));
}

/* Makes each allocation of a call fail, alone and with all after it. Returns how many calls ran out
 * of memory. */
static size_t fail_each_of(bool (*has_failed)(void)) {
    fail_from(SIZE_MAX, 0);
    CHECK(!has_failed() && allocations > 0);
    size_t total = allocations, failed = 0;
    for (size_t first = 1; first <= total; first++) {
        fail_from(first, first);
        failed += has_failed();
        fail_from(first, SIZE_MAX);
        failed += has_failed();
    }
    CHECK(failed > 0);
    return failed;
}

int main(void) {
    size_t failed =
        fail_each_of(position_fails) + fail_each_of(byte_fails) + fail_each_of(edits_fail);
    for (uint32_t style = CODESPAN_RICH; style <= CODESPAN_SHORT; style++)
        for (uint32_t form = CODESPAN_TERMINAL; form <= CODESPAN_SVG; form++) {
            codespan_config config = codespan_default_config();
            config.display_style = style;
            config.form = form;
            failed += fail_all(&config);
            config.color_mode = CODESPAN_DEFAULT_STYLES;
            failed += fail_all(&config);
        }
    printf("failed allocations: %zu calls ran out of memory, and reported it\n", failed);
    return 0;
}
