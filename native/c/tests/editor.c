/* Positions and edits: values that are worked out by hand, each kind of invalid argument, and each
 * room up to the length of an edited text. */
#include "sample.h"
#include <codespan_editor.h>

/* ---- positions ---- */

/* Three lines: characters of one, four, one and two bytes. */
#define LINES "one\na\360\220\220\200b\n\303\251"

/* What a call looked up. */
struct found {
    uint32_t status;
    codespan_editor_position position;
    size_t byte;
    codespan_detail detail;
};

static struct found position_of(const codespan_file *file, uint32_t encoding, size_t byte) {
    struct found found = {UINT32_MAX, {7, 7}, 7, {UINT32_MAX, SIZE_MAX}};
    found.status = codespan_position(file, encoding, byte, &found.position, &found.detail);
    return found;
}

static struct found byte_of(const codespan_file *file, uint32_t encoding, uint32_t line,
                            uint32_t character) {
    struct found found = {UINT32_MAX, {line, character}, 7, {UINT32_MAX, SIZE_MAX}};
    found.status = codespan_byte(file, encoding, &found.position, &found.byte, &found.detail);
    return found;
}

static bool is_detail(codespan_detail detail, uint32_t argument, size_t index) {
    return detail.argument == argument && detail.index == index;
}

/* A byte has this position, and the position this byte. */
static void test_both(const codespan_file *file, uint32_t encoding, size_t byte, uint32_t line,
                      uint32_t character) {
    struct found there = position_of(file, encoding, byte);
    CHECK(there.status == CODESPAN_OK && is_detail(there.detail, CODESPAN_ARGUMENT_NONE, 0));
    CHECK(there.position.line == line && there.position.character == character);
    struct found back = byte_of(file, encoding, line, character);
    CHECK(back.status == CODESPAN_OK && is_detail(back.detail, CODESPAN_ARGUMENT_NONE, 0));
    CHECK(back.byte == byte);
}

/* A byte has no position. */
static void test_no_position(const codespan_file *file, uint32_t encoding, size_t byte,
                             uint32_t argument, size_t index) {
    struct found found = position_of(file, encoding, byte);
    CHECK(found.status == CODESPAN_INVALID && is_detail(found.detail, argument, index));
    CHECK(found.position.line == 0 && found.position.character == 0);
}

/* A position has no byte. */
static void test_no_byte(const codespan_file *file, uint32_t encoding, uint32_t line,
                         uint32_t character, uint32_t argument, size_t index) {
    struct found found = byte_of(file, encoding, line, character);
    CHECK(found.status == CODESPAN_INVALID && is_detail(found.detail, argument, index));
    CHECK(found.byte == 0);
}

/* A byte, its line, and its character in UTF-16, UTF-8 and UTF-32. */
struct place {
    size_t byte;
    uint32_t line, characters[3];
};

static const struct place PLACES[] = {
    {0, 0, {0, 0, 0}}, {3, 0, {3, 3, 3}},  {4, 1, {0, 0, 0}},  {5, 1, {1, 1, 1}},
    {9, 1, {3, 5, 2}}, {10, 1, {4, 6, 3}}, {11, 2, {0, 0, 0}}, {13, 2, {1, 2, 1}},
};

static void test_whole_file(void) {
    codespan_file file = codespan_new_file(codespan_text_from("f"), codespan_text_from(LINES));
    for (size_t i = 0; i < sizeof PLACES / sizeof PLACES[0]; i++)
        for (uint32_t encoding = CODESPAN_UTF16; encoding <= CODESPAN_UTF32; encoding++)
            test_both(&file, encoding, PLACES[i].byte, PLACES[i].line,
                      PLACES[i].characters[encoding]);
    test_no_position(&file, CODESPAN_UTF16, 6, CODESPAN_ARGUMENT_CHAR_BOUNDARY, 0);
    test_no_position(&file, CODESPAN_UTF8, 12, CODESPAN_ARGUMENT_CHAR_BOUNDARY, 0);
    test_no_position(&file, CODESPAN_UTF32, 14, CODESPAN_ARGUMENT_COLUMN_TOO_LARGE, 2);
    test_no_position(&file, CODESPAN_UTF16, SIZE_MAX, CODESPAN_ARGUMENT_COLUMN_TOO_LARGE, 2);
    /* after the newline, which is a byte of the next line */
    CHECK(byte_of(&file, CODESPAN_UTF16, 1, 5).byte == 11);
    test_no_byte(&file, CODESPAN_UTF16, 1, 6, CODESPAN_ARGUMENT_COLUMN_TOO_LARGE, 5);
    test_no_byte(&file, CODESPAN_UTF8, 1, 8, CODESPAN_ARGUMENT_COLUMN_TOO_LARGE, 7);
    test_no_byte(&file, CODESPAN_UTF32, 0, UINT32_MAX, CODESPAN_ARGUMENT_COLUMN_TOO_LARGE, 4);
    test_no_byte(&file, CODESPAN_UTF16, 1, 2, CODESPAN_ARGUMENT_CHAR_BOUNDARY, 0);
    test_no_byte(&file, CODESPAN_UTF8, 2, 1, CODESPAN_ARGUMENT_CHAR_BOUNDARY, 0);
    test_no_byte(&file, CODESPAN_UTF16, 3, 0, CODESPAN_ARGUMENT_LINE_TOO_LARGE, 0);
    test_no_byte(&file, CODESPAN_UTF16, UINT32_MAX, 0, CODESPAN_ARGUMENT_LINE_TOO_LARGE, 0);
}

/* A file without text has one position. */
static void test_empty_file(void) {
    codespan_file file = {0};
    test_both(&file, CODESPAN_UTF16, 0, 0, 0);
    test_no_position(&file, CODESPAN_UTF16, 1, CODESPAN_ARGUMENT_COLUMN_TOO_LARGE, 0);
    test_no_byte(&file, CODESPAN_UTF16, 0, 1, CODESPAN_ARGUMENT_COLUMN_TOO_LARGE, 0);
    test_no_byte(&file, CODESPAN_UTF16, 1, 0, CODESPAN_ARGUMENT_LINE_TOO_LARGE, 0);
}

/* A window, whose bytes and lines count from the start of the file, and one at the end of all
 * numbers. */
static void test_window(void) {
    codespan_file file = codespan_new_file(codespan_text_from("f"), codespan_text_from(LINES));
    file.first_byte = 100;
    file.first_line = 7;
    test_both(&file, CODESPAN_UTF16, 100, 7, 0);
    test_both(&file, CODESPAN_UTF16, 109, 8, 3);
    struct found before = position_of(&file, CODESPAN_UTF16, 99);
    CHECK(before.status == CODESPAN_OK && before.position.line == 7);
    CHECK(before.position.character == 0);
    test_no_byte(&file, CODESPAN_UTF16, 6, 0, CODESPAN_ARGUMENT_LINE_TOO_LARGE, 0);
    test_no_byte(&file, CODESPAN_UTF16, 10, 0, CODESPAN_ARGUMENT_LINE_TOO_LARGE, 0);
    file.first_byte = SIZE_MAX - 1;
    file.first_line = UINT32_MAX;
    test_both(&file, CODESPAN_UTF16, SIZE_MAX, UINT32_MAX, 1);
    CHECK(byte_of(&file, CODESPAN_UTF16, UINT32_MAX, 2).byte == SIZE_MAX);
    file.first_byte = 0;
    test_both(&file, CODESPAN_UTF16, 3, UINT32_MAX, 3);
    test_no_position(&file, CODESPAN_UTF16, 4, CODESPAN_ARGUMENT_LINE_TOO_LARGE, 0);
    file.first_line = SIZE_MAX;
    test_no_position(&file, CODESPAN_UTF16, 0, CODESPAN_ARGUMENT_LINE_TOO_LARGE, 0);
    test_no_byte(&file, CODESPAN_UTF16, UINT32_MAX, 0, CODESPAN_ARGUMENT_LINE_TOO_LARGE, 0);
}

/* Lines of the caller's, which end before their newlines, in a window. */
static void test_stated_lines(void) {
    codespan_line lines[] = {{100, 103, 70}, {104, 110, 80}};
    codespan_location locations[] = {{104, 1, 1}};
    codespan_file file = codespan_new_file(codespan_text_from("f"), codespan_text_from(LINES));
    file.first_byte = 100;
    file.first_line = 5;
    file.lines = lines;
    file.lines_length = 2;
    file.locations = locations;
    file.locations_length = 1;
    test_both(&file, CODESPAN_UTF16, 103, 5, 3);
    test_both(&file, CODESPAN_UTF16, 104, 6, 0);
    test_both(&file, CODESPAN_UTF16, 110, 6, 4);
    test_no_position(&file, CODESPAN_UTF16, 111, CODESPAN_ARGUMENT_COLUMN_TOO_LARGE, 6);
    test_no_byte(&file, CODESPAN_UTF16, 5, 4, CODESPAN_ARGUMENT_COLUMN_TOO_LARGE, 3);
    test_no_byte(&file, CODESPAN_UTF16, 7, 0, CODESPAN_ARGUMENT_LINE_TOO_LARGE, 0);
}

/* The arguments that are checked before the byte, from the last one to the first: each is named
 * though the ones after it are invalid too. */
static void test_invalid_arguments(void) {
    struct sample sample;
    set_sample(&sample);
    codespan_file *file = &sample.files[1];
    test_no_position(file, 3, 112, CODESPAN_ARGUMENT_ENCODING, 0);
    test_no_byte(file, UINT32_MAX, 9, 9, CODESPAN_ARGUMENT_ENCODING, 0);
    file->reserved[1] = 1;
    test_no_position(file, 3, 112, CODESPAN_ARGUMENT_FILE_RESERVED, 0);
    test_no_byte(file, 0, 0, 0, CODESPAN_ARGUMENT_FILE_RESERVED, 0);
    sample.locations[1].byte = 100;
    test_no_position(file, 3, 112, CODESPAN_ARGUMENT_FILE_LOCATIONS, 0);
    sample.lines[2].end = 112;
    test_no_position(file, 3, 112, CODESPAN_ARGUMENT_FILE_LINES, 0);
    file->source = codespan_text_from("\303");
    test_no_byte(file, 3, 9, 9, CODESPAN_ARGUMENT_FILE_SOURCE, 0);
    file->name = codespan_text_from("\303");
    test_no_byte(file, 3, 9, 9, CODESPAN_ARGUMENT_FILE_NAME, 0);
}

/* ---- edits ---- */

enum { OUT_CAPACITY = 64, EDITS_MAX = 3 };

static struct outcome apply(const char *source, const codespan_edit *edits, size_t count,
                            uint8_t *out, size_t capacity) {
    struct outcome outcome = {UINT32_MAX, SIZE_MAX, {UINT32_MAX, SIZE_MAX}};
    memset(out, UNWRITTEN, OUT_CAPACITY);
    outcome.status = codespan_apply_edits((const uint8_t *)source, strlen(source), edits, count,
                                          out, capacity, &outcome.written, &outcome.detail);
    return outcome;
}

static codespan_edit edit(size_t start, size_t end, const char *replacement) {
    return codespan_new_edit(start, end, codespan_text_from(replacement));
}

/* The edits make this text, in each room up to its length. */
static void test_edited(const char *source, const codespan_edit *edits, size_t count,
                        const char *wanted) {
    uint8_t out[OUT_CAPACITY];
    size_t length = strlen(wanted);
    for (size_t capacity = 0; capacity <= length + 1; capacity++) {
        struct outcome outcome = apply(source, edits, count, out, capacity);
        CHECK(outcome.written == length && is_detail(outcome.detail, CODESPAN_ARGUMENT_NONE, 0));
        size_t written = capacity < length ? 0 : length;
        CHECK(outcome.status == (capacity < length ? CODESPAN_TOO_SMALL : CODESPAN_OK));
        CHECK(memcmp(out, wanted, written) == 0);
        CHECK(is_unwritten(out + written, sizeof out - written));
    }
}

static void test_edits(void) {
    codespan_edit call[] = {edit(4, 5, "&y"), edit(0, 0, "let x = ")};
    test_edited("foo(y)", call, 2, "let x = foo(&y)");
    codespan_edit touching[] = {edit(3, 6, ""), edit(0, 3, "ab"), edit(6, 6, "\303\251")};
    test_edited("onetwo", touching, 3, "ab\303\251");
    codespan_edit same_byte[] = {edit(1, 1, "1"), edit(1, 1, "2"), edit(1, 2, "3")};
    test_edited("xyz", same_byte, 3, "x123z");
    test_edited("one\n", NULL, 0, "one\n");
    test_edited("", NULL, 0, "");
    codespan_edit nothing = {0};
    test_edited("\303\251", &nothing, 1, "\303\251");
    uint8_t out[1] = {UNWRITTEN};
    size_t written = 7;
    codespan_detail detail;
    CHECK(codespan_apply_edits(NULL, 0, NULL, 0, NULL, 0, &written, &detail) == CODESPAN_OK);
    CHECK(written == 0 && out[0] == UNWRITTEN);
}

/* One of the edits is invalid. */
static void test_invalid_edits(const char *source, codespan_edit first, codespan_edit second,
                               uint32_t argument, size_t index) {
    const codespan_edit edits[] = {first, second};
    uint8_t out[OUT_CAPACITY];
    struct outcome outcome = apply(source, edits, 2, out, sizeof out);
    CHECK(outcome.status == CODESPAN_INVALID && is_detail(outcome.detail, argument, index));
    CHECK(outcome.written == 0 && is_unwritten(out, sizeof out));
}

static void test_faults(void) {
    const char *source = "ab\303\251cd";
    codespan_edit valid = edit(0, 1, "x"), reserved = edit(3, 9, "");
    test_invalid_edits(source, valid, edit(2, 1, ""), CODESPAN_ARGUMENT_EDIT_REVERSED, 1);
    test_invalid_edits(source, edit(SIZE_MAX, 0, ""), valid, CODESPAN_ARGUMENT_EDIT_REVERSED, 0);
    test_invalid_edits(source, valid, edit(6, 7, ""), CODESPAN_ARGUMENT_EDIT_PAST_END, 1);
    test_invalid_edits(source, valid, edit(1, SIZE_MAX, ""), CODESPAN_ARGUMENT_EDIT_PAST_END, 1);
    test_invalid_edits(source, edit(3, 4, ""), valid, CODESPAN_ARGUMENT_EDIT_BOUNDARY, 0);
    test_invalid_edits(source, edit(1, 3, ""), valid, CODESPAN_ARGUMENT_EDIT_BOUNDARY, 0);
    test_invalid_edits(source, edit(0, 2, ""), edit(1, 4, ""), CODESPAN_ARGUMENT_EDIT_OVERLAP, 1);
    test_invalid_edits(source, edit(1, 4, ""), edit(0, 2, ""), CODESPAN_ARGUMENT_EDIT_OVERLAP, 0);
    test_invalid_edits(source, edit(0, 1, "\377"), edit(2, 1, ""),
                       CODESPAN_ARGUMENT_EDIT_REPLACEMENT, 0);
    reserved.reserved[1] = 1;
    test_invalid_edits(source, edit(2, 1, ""), reserved, CODESPAN_ARGUMENT_EDIT_RESERVED, 1);
    test_invalid_edits(source, reserved, edit(2, 1, "\377"), CODESPAN_ARGUMENT_EDIT_REPLACEMENT, 1);
    test_invalid_edits("\303", reserved, edit(2, 1, "\377"), CODESPAN_ARGUMENT_FILE_SOURCE, 0);
    /* of two invalid ranges the first one, also where the later one is reversed */
    test_invalid_edits(source, edit(0, 9, ""), edit(2, 1, ""), CODESPAN_ARGUMENT_EDIT_PAST_END, 0);
}

/* Each argument of this header has a text of its own. */
static void test_texts(void) {
    uint8_t any[CODESPAN_STATUS_TEXT_MAX], text[CODESPAN_STATUS_TEXT_MAX];
    size_t any_length, length;
    codespan_status_text(CODESPAN_INVALID, CODESPAN_ARGUMENT_EDIT_OVERLAP + 1, any, sizeof any,
                         &any_length);
    for (uint32_t argument = CODESPAN_ARGUMENT_ENCODING; argument <= CODESPAN_ARGUMENT_EDIT_OVERLAP;
         argument++) {
        CHECK(codespan_status_text(CODESPAN_INVALID, argument, text, sizeof text, &length) ==
              CODESPAN_OK);
        CHECK(length > 0 && (length != any_length || memcmp(text, any, length) != 0));
    }
}

int main(void) {
    test_whole_file();
    test_empty_file();
    test_window();
    test_stated_lines();
    test_invalid_arguments();
    test_edits();
    test_faults();
    test_texts();
    printf("editor: positions and edits as they are worked out by hand\n");
    return 0;
}
