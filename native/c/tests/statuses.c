/* Each status of an invalid argument, and each argument that can be invalid: a diagnostic with
 * everything in it is rendered with invalid arguments. And the texts of statuses. */
#include "sample.h"

/* ---- invalid arguments ---- */

/* Not UTF-8: the text ends inside a character. */
static codespan_text cut(void) { return codespan_text_from("\303"); }

static void set_abi(struct sample *s) { s->config.abi = CODESPAN_ABI + 1; }
static void set_display_style(struct sample *s) { s->config.display_style = 3; }
static void set_layout(struct sample *s) { s->config.layout = 2; }
static void set_form(struct sample *s) { s->config.form = 5; }
static void set_color_mode(struct sample *s) { s->config.color_mode = 3; }
static void set_config_reserved(struct sample *s) { s->config.reserved[6] = 1; }
static void set_file_reserved(struct sample *s) { s->files[1].reserved[1] = SIZE_MAX; }
static void set_diagnostic_reserved(struct sample *s) { s->diagnostic.reserved[0] = 1; }
static void set_label_reserved(struct sample *s) { s->labels[2].reserved[1] = 1; }
static void set_characters(struct sample *s) { s->config.characters = 3; }
static void set_snippet_start(struct sample *s) {
    s->config.characters = CODESPAN_CUSTOM_CHARS;
    s->config.chars.snippet_start = cut();
}
static void set_first_character(struct sample *s) {
    s->config.characters = CODESPAN_CUSTOM_CHARS;
    s->config.chars.source_border_left = 0xd800;
}
static void set_last_character(struct sample *s) {
    s->config.characters = CODESPAN_CUSTOM_CHARS;
    s->config.chars.pointer_left = 0x110000;
}
static void set_first_color(struct sample *s) {
    s->config.color_mode = CODESPAN_OWN_STYLES;
    s->config.styles.header_bug.fg = 9;
}
static void set_last_color(struct sample *s) {
    s->config.color_mode = CODESPAN_OWN_STYLES;
    s->config.styles.note_bullet.bg = 9;
}
static void set_file_name(struct sample *s) { s->files[1].name = cut(); }
static void set_file_source(struct sample *s) { s->files[0].source = cut(); }
static void set_first_line(struct sample *s) { s->lines[0].start = 101; }
static void set_lines_that_overlap(struct sample *s) { s->lines[1].start = 103; }
static void set_reversed_line(struct sample *s) { s->lines[1].end = 103; }
static void set_line_past_the_end(struct sample *s) { s->lines[2].end = 114; }
static void set_line_inside_a_character(struct sample *s) { s->lines[2].end = 112; }
static void set_location_twice(struct sample *s) { s->locations[1].byte = 100; }
static void set_severity(struct sample *s) { s->diagnostic.severity = 5; }
static void set_code(struct sample *s) { s->diagnostic.code = cut(); }
static void set_message(struct sample *s) { s->diagnostic.message = cut(); }
static void set_label_style(struct sample *s) { s->labels[2].style = 2; }
static void set_label_message(struct sample *s) { s->labels[1].message = cut(); }
static void set_label_file(struct sample *s) { s->labels[1].file = 2; }
static void set_greatest_file(struct sample *s) { s->labels[0].file = SIZE_MAX; }
static void set_note(struct sample *s) { s->notes[1] = cut(); }

/* Two at once: the one with the lower number is named, and of one number the one with the lower
 * index. */
static void set_file_and_severity(struct sample *s) {
    set_label_file(s);
    set_severity(s);
}
static void set_abi_and_file(struct sample *s) {
    set_abi(s);
    set_label_file(s);
}
static void set_note_and_file(struct sample *s) {
    set_note(s);
    set_label_file(s);
}
static void set_source_and_later_name(struct sample *s) {
    set_file_source(s);
    set_file_name(s);
}
static void set_two_files(struct sample *s) {
    set_label_file(s);
    set_greatest_file(s);
}
static void set_two_notes(struct sample *s) {
    set_note(s);
    s->notes[0] = cut();
}

struct invalid_case {
    void (*set)(struct sample *sample);
    uint32_t status;
    codespan_detail detail;
};

static const struct invalid_case INVALID_CASES[] = {
    {set_abi, CODESPAN_INVALID, {CODESPAN_ARGUMENT_ABI, 0}},
    {set_display_style, CODESPAN_INVALID, {CODESPAN_ARGUMENT_DISPLAY_STYLE, 0}},
    {set_layout, CODESPAN_INVALID, {CODESPAN_ARGUMENT_LAYOUT, 0}},
    {set_form, CODESPAN_INVALID, {CODESPAN_ARGUMENT_FORM, 0}},
    {set_color_mode, CODESPAN_INVALID, {CODESPAN_ARGUMENT_COLOR_MODE, 0}},
    {set_characters, CODESPAN_INVALID, {CODESPAN_ARGUMENT_CHARACTERS, 0}},
    {set_snippet_start, CODESPAN_INVALID, {CODESPAN_ARGUMENT_SNIPPET_START, 0}},
    {set_first_character, CODESPAN_INVALID, {CODESPAN_ARGUMENT_CHARACTER, 0}},
    {set_last_character, CODESPAN_INVALID, {CODESPAN_ARGUMENT_CHARACTER, 14}},
    {set_first_color, CODESPAN_INVALID, {CODESPAN_ARGUMENT_COLOR, 0}},
    {set_last_color, CODESPAN_INVALID, {CODESPAN_ARGUMENT_COLOR, 14}},
    {set_config_reserved, CODESPAN_INVALID, {CODESPAN_ARGUMENT_CONFIG_RESERVED, 0}},
    {set_file_name, CODESPAN_INVALID, {CODESPAN_ARGUMENT_FILE_NAME, 1}},
    {set_file_source, CODESPAN_INVALID, {CODESPAN_ARGUMENT_FILE_SOURCE, 0}},
    {set_first_line, CODESPAN_INVALID, {CODESPAN_ARGUMENT_FILE_LINES, 1}},
    {set_lines_that_overlap, CODESPAN_INVALID, {CODESPAN_ARGUMENT_FILE_LINES, 1}},
    {set_reversed_line, CODESPAN_INVALID, {CODESPAN_ARGUMENT_FILE_LINES, 1}},
    {set_line_past_the_end, CODESPAN_INVALID, {CODESPAN_ARGUMENT_FILE_LINES, 1}},
    {set_line_inside_a_character, CODESPAN_INVALID, {CODESPAN_ARGUMENT_FILE_LINES, 1}},
    {set_location_twice, CODESPAN_INVALID, {CODESPAN_ARGUMENT_FILE_LOCATIONS, 1}},
    {set_file_reserved, CODESPAN_INVALID, {CODESPAN_ARGUMENT_FILE_RESERVED, 1}},
    {set_severity, CODESPAN_INVALID, {CODESPAN_ARGUMENT_SEVERITY, 0}},
    {set_code, CODESPAN_INVALID, {CODESPAN_ARGUMENT_CODE, 0}},
    {set_message, CODESPAN_INVALID, {CODESPAN_ARGUMENT_MESSAGE, 0}},
    {set_diagnostic_reserved, CODESPAN_INVALID, {CODESPAN_ARGUMENT_DIAGNOSTIC_RESERVED, 0}},
    {set_label_style, CODESPAN_INVALID, {CODESPAN_ARGUMENT_LABEL_STYLE, 2}},
    {set_label_message, CODESPAN_INVALID, {CODESPAN_ARGUMENT_LABEL_MESSAGE, 1}},
    {set_label_file, CODESPAN_FILE_MISSING, {CODESPAN_ARGUMENT_LABEL_FILE, 1}},
    {set_greatest_file, CODESPAN_FILE_MISSING, {CODESPAN_ARGUMENT_LABEL_FILE, 0}},
    {set_label_reserved, CODESPAN_INVALID, {CODESPAN_ARGUMENT_LABEL_RESERVED, 2}},
    {set_note, CODESPAN_INVALID, {CODESPAN_ARGUMENT_NOTE, 1}},
    {set_file_and_severity, CODESPAN_INVALID, {CODESPAN_ARGUMENT_SEVERITY, 0}},
    {set_abi_and_file, CODESPAN_INVALID, {CODESPAN_ARGUMENT_ABI, 0}},
    {set_note_and_file, CODESPAN_FILE_MISSING, {CODESPAN_ARGUMENT_LABEL_FILE, 1}},
    {set_source_and_later_name, CODESPAN_INVALID, {CODESPAN_ARGUMENT_FILE_NAME, 1}},
    {set_two_files, CODESPAN_FILE_MISSING, {CODESPAN_ARGUMENT_LABEL_FILE, 0}},
    {set_two_notes, CODESPAN_INVALID, {CODESPAN_ARGUMENT_NOTE, 0}},
};

enum { CASES_LENGTH = sizeof INVALID_CASES / sizeof INVALID_CASES[0], OUT_CAPACITY = 256 };

/* ---- the tests ---- */

/* The call reports the invalid argument, and writes nothing. */
static void test_invalid(const struct invalid_case *wanted) {
    struct sample sample;
    set_sample(&sample);
    wanted->set(&sample);
    struct call call = call_of(&sample);
    uint8_t out[OUT_CAPACITY];
    memset(out, UNWRITTEN, sizeof out);
    struct outcome outcome = emit(&call, out, sizeof out);
    if (outcome.status != wanted->status || outcome.detail.argument != wanted->detail.argument ||
        outcome.detail.index != wanted->detail.index)
        fprintf(stderr, "row %td: status %u, argument %u, index %zu\n", wanted - INVALID_CASES,
                outcome.status, outcome.detail.argument, outcome.detail.index);
    CHECK(outcome.status == wanted->status);
    CHECK(outcome.detail.argument == wanted->detail.argument);
    CHECK(outcome.detail.index == wanted->detail.index);
    CHECK(outcome.written == 0 && is_unwritten(out, sizeof out));
}

/* Whether a text of codespan_status_text is one line of printable ASCII. */
static bool is_line(const uint8_t *text, size_t length) {
    for (size_t i = 0; i < length; i++)
        if (text[i] < ' ' || text[i] > '~')
            return false;
    return length > 0 && length <= CODESPAN_STATUS_TEXT_MAX;
}

/* Each status has a text, which is written to a buffer of its length and not to a shorter one. */
static void test_status_text(uint32_t status, uint32_t argument) {
    uint8_t text[CODESPAN_STATUS_TEXT_MAX + 1];
    size_t length = SIZE_MAX, again = SIZE_MAX;
    memset(text, UNWRITTEN, sizeof text);
    CHECK(codespan_status_text(status, argument, text, sizeof text, &length) == CODESPAN_OK);
    CHECK(is_line(text, length) && is_unwritten(text + length, sizeof text - length));
    memset(text, UNWRITTEN, sizeof text);
    CHECK(codespan_status_text(status, argument, text, length - 1, &again) == CODESPAN_TOO_SMALL);
    CHECK(again == length && is_unwritten(text, sizeof text));
    CHECK(codespan_status_text(status, argument, text, length, &again) == CODESPAN_OK);
    CHECK(again == length && is_line(text, length));
}

int main(void) {
    CHECK(codespan_abi_version() == CODESPAN_ABI);
    CHECK(strcmp(codespan_version(), CODESPAN_VERSION) == 0);
    for (size_t i = 0; i < CASES_LENGTH; i++)
        test_invalid(&INVALID_CASES[i]);
    for (uint32_t status = CODESPAN_OK; status <= CODESPAN_INVALID + 1; status++)
        for (uint32_t argument = 0; argument <= CODESPAN_ARGUMENT_NOTE + 1; argument++)
            test_status_text(status, argument);
    test_status_text(UINT32_MAX, UINT32_MAX);
    printf("statuses: %d calls with invalid arguments, each reported\n", (int)CASES_LENGTH);
    return 0;
}
