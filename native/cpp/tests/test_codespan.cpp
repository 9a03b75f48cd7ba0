/* Tests of codespan.hpp: texts, errors, custom styles, and streams that are no terminal.
 *
 *     test_codespan print    prints a diagnostic to standard output, for tests with a terminal
 */
#include <codespan.hpp>
#include <cstdlib>
#include <cstring>

namespace {

int failures = 0;

void check(bool holds, const char *what) {
    if (holds)
        return;
    std::fprintf(stderr, "test_codespan: %s\n", what);
    failures++;
}

constexpr std::string_view SOURCE = "fn main() {\n    let x = foo(y);\n}\n";

const codespan::File FILE_OF_SOURCE{"main.rs", SOURCE};

codespan::Diagnostic unknown_name() {
    codespan::Diagnostic diagnostic{codespan::Severity::Error, "unknown name"};
    diagnostic.code = "E0425";
    diagnostic.labels = {codespan::primary(0, 28, 29, "not declared"),
                         codespan::secondary(0, 3, 7, "in this function")};
    diagnostic.notes = {"names are declared by let"};
    return diagnostic;
}

constexpr std::string_view PLAIN = "error[E0425]: unknown name\n"
                                   "  ┌─ main.rs:2:17\n"
                                   "  │\n"
                                   "1 │ fn main() {\n"
                                   "  │    ---- in this function\n"
                                   "2 │     let x = foo(y);\n"
                                   "  │                 ^ not declared\n"
                                   "  │\n"
                                   "  = names are declared by let\n\n";

constexpr std::string_view ASCII_SHORT = "main.rs:2:17: error[E0425]: unknown name\n";

std::string text_of(const codespan::Diagnostic &diagnostic, const codespan::Config &config = {}) {
    codespan::Emitted emitted = codespan::try_emit({FILE_OF_SOURCE}, diagnostic, config);
    check(bool(emitted), "a diagnostic is rendered");
    return emitted.text;
}

void test_texts() {
    check(text_of(unknown_name()) == PLAIN, "the plain text");
    codespan::Config config;
    config.display_style = codespan::DisplayStyle::Short;
    config.characters = codespan::Characters::Ascii;
    check(text_of(unknown_name(), config) == ASCII_SHORT, "short style");
    check(codespan::detail::c_config(config).max_width == 0, "lines of any width");
    config.max_width = 7;
    check(codespan::detail::c_config(config).max_width == 7, "lines of a greatest width");
    codespan::Diagnostic labeled{codespan::Severity::Error, "m"};
    labeled.labels = {codespan::primary(0, 3, 5, "here")};
    codespan::Config narrow;
    narrow.max_width = 30;
    const codespan::File letters{"f", "abcdefghijklmnopqrstuvwxyz1234"};
    check(codespan::try_emit({letters}, labeled, narrow).text ==
              "error: m\n  ┌─ f:1:4\n  │\n1 │ abcdefghijklmnopqrstuvw...\n  │    ^^ here\n\n",
          "a line that does not fit");
    const codespan::Diagnostic bare{codespan::Severity::Bug, ""};
    check(text_of(bare) == "bug: \n\n", "a diagnostic without labels");
}

/* An output that is longer than the first room, and lines of the caller's. */
void test_long_output() {
    const std::string message(5000, 'm');
    const codespan::Diagnostic diagnostic{codespan::Severity::Note, message};
    check(text_of(diagnostic) == "note: " + message + "\n\n", "a long output");
    codespan::File file{"f", "abc"};
    file.lines = {{0, 3, 70}};
    codespan::Diagnostic labeled{codespan::Severity::Note, "m"};
    labeled.labels = {codespan::primary(0, 1, 2)};
    const codespan::Emitted emitted = codespan::try_emit({file}, labeled);
    check(emitted.text == "note: m\n   ┌─ f:70:2\n   │\n70 │ abc\n   │  ^\n\n", "own lines");
}

void test_colors() {
    codespan::Config config;
    config.colors = codespan::Colors::Default;
    const std::string colored = text_of(unknown_name(), config);
    check(colored.find("\x1b[0m\x1b[1m\x1b[38;5;9merror[E0425]") == 0, "default colors");
    config.colors = codespan::Colors::Own;
    config.styles.header_error = {CODESPAN_GREEN, CODESPAN_NO_COLOR, 0, 0};
    check(text_of(unknown_name(), config).find("\x1b[0m\x1b[32merror[E0425]") == 0, "own styles");
}

/* A message that is not safe to print, in each form. */
void test_forms() {
    const codespan::Diagnostic diagnostic{codespan::Severity::Note, "a\x1b[2J<b"};
    check(text_of(diagnostic) == "note: a[2J<b\n\n", "safe text");
    codespan::Config config;
    config.form = codespan::Form::Text;
    check(text_of(diagnostic, config) == "note: a\x1b[2J<b\n\n", "text");
    config.form = codespan::Form::StyleMarks;
    check(text_of(diagnostic, config) == "\xff\x81note\xff\x85: a\x1b[2J<b\xff\x93\n\n", "marks");
#ifdef __cpp_exceptions
    check(codespan::to_html({}, diagnostic) ==
              "<pre class=\"diagnostic\">\n<span class=\"header-note\">note</span>"
              "<span class=\"header-message\">: a[2J&lt;b</span>\n\n</pre>",
          "HTML");
    const std::string svg = codespan::to_svg({}, diagnostic);
    check(codespan::html_styles().find(".header-error { color: #ff0000;") != std::string::npos,
          "CSS");
    check(svg.find("<svg ") == 0 && svg.find(">a[2J&lt;b</text>") != svg.npos, "SVG");
#endif
}

void test_errors() {
    codespan::Diagnostic diagnostic{codespan::Severity::Error, "m"};
    diagnostic.labels = {codespan::primary(0, 0, 1), codespan::primary(7, 0, 1)};
    const codespan::Emitted emitted = codespan::try_emit({FILE_OF_SOURCE}, diagnostic);
    check(emitted.status == CODESPAN_FILE_MISSING && emitted.text.empty(), "a missing file");
    check(emitted.detail.index == 1, "the index of its label");
#ifdef __cpp_exceptions
    diagnostic.labels.clear();
    diagnostic.message = "\xff";
    try {
        codespan::emit({FILE_OF_SOURCE}, diagnostic);
        check(false, "a message that is not UTF-8 throws");
    } catch (const codespan::Error &error) {
        check(error.status() == CODESPAN_INVALID, "its status");
        check(error.argument() == CODESPAN_ARGUMENT_MESSAGE && error.index() == 0, "its argument");
        check(std::strlen(error.what()) > 0, "its text");
    }
#endif
}

int print_it() {
#ifdef __cpp_exceptions
    return codespan::print(stdout, {FILE_OF_SOURCE}, unknown_name()) ? 0 : 1;
#else
    return 1;
#endif
}

} // namespace

int main(int argc, char **argv) {
    if (argc == 2 && std::strcmp(argv[1], "print") == 0)
        return print_it();
    test_texts();
    test_long_output();
    test_colors();
    test_forms();
    test_errors();
    if (failures == 0)
        std::puts("test_codespan: ok");
    return failures == 0 ? 0 : 1;
}
