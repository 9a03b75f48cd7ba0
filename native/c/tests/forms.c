/* An output in each form: in each room up to its length, with values that are not read, with
 * structs that are {0}, and with a message that is not safe to print. */
#include "sample.h"

enum { OUT_CAPACITY = 8192 };

/* With each capacity below the length of the output the call reports that length and writes
 * nothing; with that length it writes the output. */
static void test_capacities(const struct call *call) {
    uint8_t out[OUT_CAPACITY];
    struct outcome whole = emit(call, out, sizeof out);
    CHECK(whole.status == CODESPAN_OK && whole.written > 0 && whole.written < sizeof out);
    CHECK(whole.detail.argument == CODESPAN_ARGUMENT_NONE && whole.detail.index == 0);
    for (size_t capacity = 0; capacity <= whole.written; capacity++) {
        uint8_t again[OUT_CAPACITY];
        memset(again, UNWRITTEN, sizeof again);
        struct outcome outcome = emit(call, again, capacity);
        CHECK(outcome.written == whole.written);
        CHECK(outcome.detail.argument == CODESPAN_ARGUMENT_NONE && outcome.detail.index == 0);
        if (capacity < whole.written) {
            CHECK(outcome.status == CODESPAN_TOO_SMALL && is_unwritten(again, sizeof again));
        } else {
            CHECK(outcome.status == CODESPAN_OK && memcmp(out, again, whole.written) == 0);
            CHECK(is_unwritten(again + capacity, sizeof again - capacity));
        }
    }
}

/* Values that are not read may be anything: the characters unless custom ones are chosen, the
 * styles likewise, and first_line where there are lines. */
static void test_unread(void) {
    struct sample sample, other;
    set_sample(&sample);
    set_sample(&other);
    other.config.chars.multi_top = UINT32_MAX;
    other.config.styles.header_note.fg = UINT32_MAX;
    other.files[1].first_line = SIZE_MAX;
    struct call call = call_of(&sample), same = call_of(&other);
    uint8_t out[OUT_CAPACITY], again[OUT_CAPACITY];
    struct outcome first = emit(&call, out, sizeof out), second = emit(&same, again, sizeof again);
    CHECK(first.status == CODESPAN_OK && second.status == CODESPAN_OK);
    CHECK(first.written == second.written && memcmp(out, again, first.written) == 0);
}

/* Nothing but a message: no files, no labels and no notes. */
static void test_empty(void) {
    codespan_config config = codespan_default_config();
    codespan_diagnostic diagnostic =
        codespan_new_diagnostic(CODESPAN_NOTE, codespan_text_from("only this"));
    struct call call = {NULL, 0, &diagnostic, &config};
    uint8_t out[OUT_CAPACITY];
    struct outcome outcome = emit(&call, out, sizeof out);
    static const char wanted[] = "note: only this\n\n";
    CHECK(outcome.status == CODESPAN_OK && outcome.written == sizeof wanted - 1);
    CHECK(memcmp(out, wanted, outcome.written) == 0);
}

/* Structs that are {0}, but for the ABI version: the smallest output, over a file too. */
static void test_zero(void) {
    codespan_config config = {0};
    codespan_diagnostic diagnostic = {0};
    codespan_label label = {0};
    codespan_file file = {0};
    config.abi = CODESPAN_ABI;
    struct call call = {NULL, 0, &diagnostic, &config};
    uint8_t out[OUT_CAPACITY];
    struct outcome outcome = emit(&call, out, sizeof out);
    static const char wanted[] = "help: \n\n";
    CHECK(outcome.status == CODESPAN_OK && outcome.written == sizeof wanted - 1);
    CHECK(memcmp(out, wanted, sizeof wanted - 1) == 0);
    CHECK(emit(&call, NULL, 0).status == CODESPAN_TOO_SMALL);
    call.files = &file;
    call.files_length = 1;
    diagnostic.labels = &label;
    diagnostic.labels_length = 1;
    CHECK(emit(&call, out, sizeof out).status == CODESPAN_OK);
}

/* A message that is not safe: what is shown for it by default, and what is written where text is
 * asked for by name. */
static void test_safe_by_default(void) {
    codespan_config config = codespan_default_config();
    codespan_diagnostic diagnostic =
        codespan_new_diagnostic(CODESPAN_NOTE, codespan_text_from("a\033[2J\342\200\256b"));
    struct call call = {NULL, 0, &diagnostic, &config};
    uint8_t out[OUT_CAPACITY];
    struct outcome outcome = emit(&call, out, sizeof out);
    static const char safe[] = "note: a[2Jb\n\n", text[] = "note: a\033[2J\342\200\256b\n\n";
    CHECK(outcome.written == sizeof safe - 1 && memcmp(out, safe, sizeof safe - 1) == 0);
    config.form = CODESPAN_TEXT;
    outcome = emit(&call, out, sizeof out);
    CHECK(outcome.written == sizeof text - 1 && memcmp(out, text, sizeof text - 1) == 0);
}

/* The style sheet: one rule and the last one, each room about its length, and colors that are
 * invalid. */
static void test_html_styles(void) {
    static const char error[] =
        ".diagnostic .header-error { color: #ff0000; font-weight: bold; }\n";
    static const char last[] = ".diagnostic .wide-3 { display: inline-block; width: 3ch; }\n";
    codespan_styles styles = codespan_default_styles();
    uint8_t css[OUT_CAPACITY + 1];
    size_t length = 0, again = 0;
    CHECK(codespan_html_styles(&styles, css, OUT_CAPACITY, &length) == CODESPAN_OK);
    css[length] = 0;
    CHECK(strstr((const char *)css, error) != NULL && length > sizeof last);
    CHECK(memcmp(css + length - (sizeof last - 1), last, sizeof last - 1) == 0);
    memset(css, UNWRITTEN, sizeof css);
    CHECK(codespan_html_styles(&styles, css, length - 1, &again) == CODESPAN_TOO_SMALL);
    CHECK(again == length && is_unwritten(css, sizeof css));
    CHECK(codespan_html_styles(&styles, css, length, &again) == CODESPAN_OK && again == length);
    styles.note_bullet.bg = CODESPAN_WHITE + 1;
    memset(css, UNWRITTEN, sizeof css);
    CHECK(codespan_html_styles(&styles, css, OUT_CAPACITY, &again) == CODESPAN_INVALID);
    CHECK(again == 0 && is_unwritten(css, sizeof css));
}

/* A line of 52 letters that has to fit 55 cells, of which the gutter takes four. */
static void test_max_width(void) {
    codespan_config config = codespan_default_config();
    codespan_file file = codespan_new_file(
        codespan_text_from("f"),
        codespan_text_from("abcdefghijklmnopqrstuvwxyzabcdefghijklmnopqrstuvwxyz"));
    codespan_label label =
        codespan_new_label(CODESPAN_PRIMARY, 0, 3, 5, codespan_text_from("here"));
    codespan_diagnostic diagnostic =
        codespan_new_diagnostic(CODESPAN_ERROR, codespan_text_from("m"));
    diagnostic.labels = &label;
    diagnostic.labels_length = 1;
    struct call call = {&file, 1, &diagnostic, &config};
    uint8_t out[OUT_CAPACITY];
    config.max_width = 55;
    struct outcome outcome = emit(&call, out, sizeof out);
    static const char shortened[] = "error: m\n"
                                    "  ┌─ f:1:4\n"
                                    "  │\n"
                                    "1 │ abcdefghijklmnopqrstuvwxyzabcdefghijklmnopqrstuv...\n"
                                    "  │    ^^ here\n\n";
    CHECK(outcome.status == CODESPAN_OK && outcome.written == sizeof shortened - 1);
    CHECK(memcmp(out, shortened, sizeof shortened - 1) == 0);
    config.max_width = SIZE_MAX;
    struct outcome whole = emit(&call, out, sizeof out);
    CHECK(whole.status == CODESPAN_OK && whole.written == outcome.written + 1);
}

int main(void) {
    struct sample sample;
    set_sample(&sample);
    for (uint32_t form = CODESPAN_TERMINAL; form <= CODESPAN_SVG; form++)
        for (uint32_t mode = CODESPAN_COLORS_OFF; mode <= CODESPAN_OWN_STYLES; mode++) {
            sample.config.form = form;
            sample.config.color_mode = mode;
            struct call call = call_of(&sample);
            test_capacities(&call);
        }
    test_unread();
    test_empty();
    test_zero();
    test_safe_by_default();
    test_html_styles();
    test_max_width();
    printf("forms: each in each room up to the length of the output\n");
    return 0;
}
