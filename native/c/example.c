/* Checks a configuration file, and reports what is wrong with it on standard error: in color where
 * codespan_stream_has_colors says so, and as plain text otherwise.
 *
 *     example FILE
 *
 * A line is `name = number`, a comment after `#`, or blank. A value that is no number is an error,
 * and so is a name that is set twice. The exit status is 0 where there are no errors, 1 where some
 * were reported, and 2 where the file could not be read or a report could not be written. */
#define _POSIX_C_SOURCE 200809L
#include <codespan.h>
#include <codespan_stream.h>
#include <stdbool.h>
#include <stdio.h>
#include <stdlib.h>

/* The settings whose names are compared with later ones. */
enum { SETTINGS_MAX = 100 };

/* A range of bytes of the file. */
struct span {
    size_t start, end;
};

struct setting {
    struct span name, value;
};

struct checker {
    codespan_file file;
    struct setting settings[SETTINGS_MAX];
    size_t settings_length;
    size_t errors;
};

/* ---- reporting ---- */

/* Stops where a diagnostic can not be rendered: memory ran out, or an argument is invalid. */
static void give_up(uint32_t status, uint32_t argument) {
    uint8_t text[CODESPAN_STATUS_TEXT_MAX];
    size_t length;
    codespan_status_text(status, argument, text, sizeof text, &length);
    fprintf(stderr, "example: %.*s\n", (int)length, (const char *)text);
    exit(2);
}

/* Renders a diagnostic, and returns the output, of *length bytes, which the caller frees. */
static uint8_t *render(const codespan_file *file, const codespan_diagnostic *diagnostic,
                       size_t *length) {
    codespan_config config = codespan_stream_config(stderr);
    size_t capacity = 1024;
    for (;;) {
        uint8_t *out = malloc(capacity);
        if (out == NULL)
            give_up(CODESPAN_OUT_OF_MEMORY, CODESPAN_ARGUMENT_NONE);
        codespan_detail detail;
        uint32_t status =
            codespan_emit(file, 1, diagnostic, &config, out, capacity, length, &detail);
        if (status == CODESPAN_OK)
            return out;
        free(out);
        if (status != CODESPAN_TOO_SMALL)
            give_up(status, detail.argument);
        capacity = *length;
    }
}

/* Writes a diagnostic to standard error. */
static void report(struct checker *checker, const codespan_diagnostic *diagnostic) {
    size_t length;
    uint8_t *out = render(&checker->file, diagnostic, &length);
    size_t written = fwrite(out, 1, length, stderr);
    free(out);
    if (written < length)
        exit(2);
    checker->errors++;
}

/* Returns a label over a range of the checked file. */
static codespan_label label_of(uint32_t style, struct span span, const char *message) {
    return codespan_new_label(style, 0, span.start, span.end, codespan_text_from(message));
}

/* ---- the checks ---- */

static bool is_blank(uint8_t byte) { return byte == ' ' || byte == '\t' || byte == '\r'; }

/* Returns a range without the blanks at its ends. */
static struct span trim(const uint8_t *bytes, struct span span) {
    while (span.start < span.end && is_blank(bytes[span.start]))
        span.start++;
    while (span.start < span.end && is_blank(bytes[span.end - 1]))
        span.end--;
    return span;
}

/* Returns the index of the first such byte of a range, or the end of the range. */
static size_t find(const uint8_t *bytes, struct span span, uint8_t byte) {
    while (span.start < span.end && bytes[span.start] != byte)
        span.start++;
    return span.start;
}

static bool is_number(const uint8_t *bytes, struct span span) {
    for (size_t i = span.start; i < span.end; i++)
        if (bytes[i] < '0' || bytes[i] > '9')
            return false;
    return span.start < span.end;
}

static bool is_same(const uint8_t *bytes, struct span a, struct span b) {
    size_t length = a.end - a.start;
    return length == b.end - b.start && memcmp(bytes + a.start, bytes + b.start, length) == 0;
}

/* Reports an error unless the value is a number. */
static void check_value(struct checker *checker, const struct setting *setting) {
    if (is_number(checker->file.source.bytes, setting->value))
        return;
    codespan_label labels[] = {
        label_of(CODESPAN_PRIMARY, setting->value, "expected a number"),
        label_of(CODESPAN_SECONDARY, setting->name, "of this setting"),
    };
    codespan_text notes[] = {codespan_text_from("a number is written in the digits 0 to 9")};
    codespan_diagnostic diagnostic =
        codespan_new_diagnostic(CODESPAN_ERROR, codespan_text_from("invalid value"));
    diagnostic.code = codespan_text_from("E1");
    diagnostic.labels = labels;
    diagnostic.labels_length = 2;
    diagnostic.notes = notes;
    diagnostic.notes_length = 1;
    report(checker, &diagnostic);
}

/* Reports an error where an earlier setting has the same name. */
static void check_name(struct checker *checker, const struct setting *setting) {
    for (size_t i = 0; i < checker->settings_length; i++) {
        struct span earlier = checker->settings[i].name;
        if (!is_same(checker->file.source.bytes, earlier, setting->name))
            continue;
        codespan_label labels[] = {
            label_of(CODESPAN_PRIMARY, setting->name, "set again here"),
            label_of(CODESPAN_SECONDARY, earlier, "first set here"),
        };
        codespan_diagnostic diagnostic =
            codespan_new_diagnostic(CODESPAN_ERROR, codespan_text_from("a name is set twice"));
        diagnostic.code = codespan_text_from("E2");
        diagnostic.labels = labels;
        diagnostic.labels_length = 2;
        report(checker, &diagnostic);
        return;
    }
}

/* Checks a line, whose range has no newline. */
static void check_line(struct checker *checker, struct span line) {
    const uint8_t *bytes = checker->file.source.bytes;
    line.end = find(bytes, line, '#');
    line = trim(bytes, line);
    if (line.start == line.end)
        return;
    size_t sign = find(bytes, line, '=');
    struct span name = {line.start, sign};
    struct span value = {sign < line.end ? sign + 1 : sign, line.end};
    struct setting setting = {trim(bytes, name), trim(bytes, value)};
    check_value(checker, &setting);
    check_name(checker, &setting);
    if (checker->settings_length < SETTINGS_MAX)
        checker->settings[checker->settings_length++] = setting;
}

static void check(struct checker *checker) {
    struct span rest = {0, checker->file.source.length};
    while (rest.start < rest.end) {
        struct span line = {rest.start, find(checker->file.source.bytes, rest, '\n')};
        check_line(checker, line);
        rest.start = line.end < rest.end ? line.end + 1 : rest.end;
    }
}

/* ---- the program ---- */

/* Reads a file of at most `capacity` bytes. Returns whether that succeeded. */
static bool read_file(const char *path, char *bytes, size_t capacity, size_t *length) {
    FILE *stream = fopen(path, "rb");
    if (stream == NULL)
        return false;
    *length = fread(bytes, 1, capacity, stream);
    bool is_whole = fgetc(stream) == EOF && !ferror(stream);
    fclose(stream);
    return is_whole;
}

int main(int argc, char **argv) {
    static char source[64 * 1024];
    static struct checker checker;
    size_t length;
    if (argc != 2 || !read_file(argv[1], source, sizeof source, &length)) {
        fputs("usage: example FILE, a readable file of at most 64 KiB\n", stderr);
        return 2;
    }
    checker.file = codespan_new_file(codespan_text_from(argv[1]), codespan_text_of(source, length));
    check(&checker);
    return checker.errors > 0 ? 1 : 0;
}
