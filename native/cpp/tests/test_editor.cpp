/* Tests of codespan_editor.hpp, beside what the compiler and std::string compute: the lengths of
 * one text in three encodings, and replacements one after another. */
#include <algorithm>
#include <codespan_editor.hpp>
#include <cstring>
#include <random>

namespace {

using codespan::Edit;
using codespan::Encoding;
using codespan::Position;

int failures = 0;

void check(bool holds, const char *what) {
    if (holds)
        return;
    std::fprintf(stderr, "test_editor: %s\n", what);
    failures++;
}

/* A place in TEXT: how many lines are before its line, these lines, and the line up to the place.
 */
struct Place {
    std::size_t line, line_start, utf8, utf16, utf32;

    std::size_t byte() const { return line_start + utf8; }

    Position position(Encoding encoding) const {
        const std::size_t character = encoding == Encoding::Utf16  ? utf16
                                      : encoding == Encoding::Utf8 ? utf8
                                                                   : utf32;
        return {static_cast<std::uint32_t>(line), static_cast<std::uint32_t>(character)};
    }
};

template <class Char, std::size_t N> constexpr std::size_t length_of(const Char (&)[N]) {
    return N - 1;
}

#define PLACE(line, lines, before)                                                                 \
    { line, length_of(lines), length_of(before), length_of(u##before), length_of(U##before) }

constexpr std::string_view TEXT = "one\na𐐀b→\n\n𝄞é";

constexpr Place PLACES[] = {
    PLACE(0, "", ""),
    PLACE(0, "", "on"),
    PLACE(0, "", "one"),
    PLACE(1, "one\n", ""),
    PLACE(1, "one\n", "a"),
    PLACE(1, "one\n", "a𐐀"),
    PLACE(1, "one\n", "a𐐀b"),
    PLACE(1, "one\n", "a𐐀b→"),
    PLACE(2, "one\na𐐀b→\n", ""),
    PLACE(3, "one\na𐐀b→\n\n", ""),
    PLACE(3, "one\na𐐀b→\n\n", "𝄞"),
    PLACE(3, "one\na𐐀b→\n\n", "𝄞é"),
};

constexpr Encoding ENCODINGS[] = {Encoding::Utf16, Encoding::Utf8, Encoding::Utf32};

const codespan::File FILE_OF_TEXT{"f", TEXT};

void test_places() {
    for (const Place &place : PLACES) {
        for (Encoding encoding : ENCODINGS) {
            const auto position = codespan::try_position(FILE_OF_TEXT, place.byte(), encoding);
            check(position && position.value == place.position(encoding), "a position");
            const auto byte = codespan::try_byte(FILE_OF_TEXT, place.position(encoding), encoding);
            check(byte && byte.value == place.byte(), "a byte");
        }
    }
    check(codespan::try_position(FILE_OF_TEXT, PLACES[5].byte()).value ==
              PLACES[5].position(Encoding::Utf16),
          "UTF-16 is the default");
}

template <class T>
void check_refused(const codespan::Found<T> &found, std::uint32_t argument, std::size_t index,
                   const char *what) {
    check(!found && found.status == CODESPAN_INVALID && found.detail.argument == argument &&
              found.detail.index == index,
          what);
}

void test_no_places() {
    check_refused(codespan::try_position(FILE_OF_TEXT, 6), CODESPAN_ARGUMENT_CHAR_BOUNDARY, 0,
                  "a byte inside a character");
    check_refused(codespan::try_position(FILE_OF_TEXT, TEXT.size() + 1),
                  CODESPAN_ARGUMENT_COLUMN_TOO_LARGE, length_of("𝄞é"), "a byte past the end");
    check_refused(codespan::try_byte(FILE_OF_TEXT, {4, 0}), CODESPAN_ARGUMENT_LINE_TOO_LARGE, 0,
                  "a line past the last one");
    check_refused(codespan::try_byte(FILE_OF_TEXT, {1, 99}), CODESPAN_ARGUMENT_COLUMN_TOO_LARGE,
                  length_of(u"a𐐀b→\n"), "a character past the line's end");
    check_refused(codespan::try_byte(FILE_OF_TEXT, {1, 2}), CODESPAN_ARGUMENT_CHAR_BOUNDARY, 0,
                  "a position inside a surrogate pair");
    check_refused(codespan::try_byte(FILE_OF_TEXT, {0, 0}, Encoding{3}), CODESPAN_ARGUMENT_ENCODING,
                  0, "no encoding");
    check_refused(codespan::try_position({"f", "\xff"}, 0), CODESPAN_ARGUMENT_FILE_SOURCE, 0,
                  "a source that is not UTF-8");
}

void test_window() {
    codespan::File file{"f", "c\né\n"};
    file.first_byte = 100;
    file.first_line = 7;
    check(codespan::try_position(file, 104).value == Position{8, 1}, "a window's position");
    check(codespan::try_byte(file, {8, 1}).value == 104, "a window's byte");
    check(Position{8, 1} != Position{8, 2} && Position{8, 1} != Position{7, 1}, "other positions");
}

/* A text after edits: by one replacement after another, from the last one on. */
std::string replaced(std::string text, std::vector<Edit> edits) {
    std::stable_sort(edits.begin(), edits.end(), [](const Edit &left, const Edit &right) {
        return std::make_pair(left.start, left.end) < std::make_pair(right.start, right.end);
    });
    for (auto edit = edits.rbegin(); edit != edits.rend(); ++edit)
        text.replace(edit->start, edit->end - edit->start, edit->replacement);
    return text;
}

void check_edited(std::string_view source, const std::vector<Edit> &edits) {
    const codespan::Emitted edited = codespan::try_apply_edits(source, edits);
    check(bool(edited) && edited.detail.argument == CODESPAN_ARGUMENT_NONE, "edits are applied");
    check(edited.text == replaced(std::string(source), edits), "an edited text");
}

void test_edits() {
    const codespan::Emitted edited = codespan::try_apply_edits(
        "use a;\nfn main() {}\n", {{10, 14, "start"}, {7, 7, "use b;\n"}, {0, 3, ""}});
    check(edited.text == " a;\nuse b;\nfn start() {}\n", "edits by hand");
    check_edited(TEXT, {});
    check_edited("", {{0, 0, "a"}, {0, 0, "b"}});
    check_edited(TEXT, {{4, 4, "x"}, {4, 5, ""}, {4, 4, "é"}, {0, 1, "𐐀"}});
}

void test_random_edits() {
    std::minstd_rand random(1);
    const std::string source(500, 's');
    const std::string replacement(7, 'r');
    for (int round = 0; round < 200; round++) {
        std::vector<Edit> edits;
        for (std::size_t start = random() % 9; start + 5 < source.size(); start += 6 + random() % 9)
            edits.push_back(
                {start, start + random() % 6, std::string_view(replacement).substr(random() % 8)});
        std::shuffle(edits.begin(), edits.end(), random);
        check_edited(source, edits);
    }
}

void test_invalid_edits() {
    const struct {
        Edit edit;
        std::uint32_t argument;
    } invalid[] = {
        {{2, 1, ""}, CODESPAN_ARGUMENT_EDIT_REVERSED},
        {{1, 4, ""}, CODESPAN_ARGUMENT_EDIT_PAST_END},
        {{1, 2, ""}, CODESPAN_ARGUMENT_EDIT_BOUNDARY},
        {{0, 3, ""}, CODESPAN_ARGUMENT_EDIT_OVERLAP},
        {{1, 1, "\xff"}, CODESPAN_ARGUMENT_EDIT_REPLACEMENT},
    };
    for (const auto &[edit, argument] : invalid) {
        const codespan::Emitted edited = codespan::try_apply_edits("aé", {{0, 1, "x"}, edit});
        check(edited.status == CODESPAN_INVALID && edited.text.empty(), "an invalid edit");
        check(edited.detail.argument == argument && edited.detail.index == 1, "its argument");
    }
}

#ifdef __cpp_exceptions
template <class Call> void check_thrown(Call call, std::uint32_t argument, std::size_t index) {
    try {
        call();
        check(false, "an exception is thrown");
    } catch (const codespan::Error &error) {
        check(error.status() == CODESPAN_INVALID && error.argument() == argument &&
                  error.index() == index && std::strlen(error.what()) > 0,
              "its argument");
    }
}

void test_exceptions() {
    check(codespan::position(FILE_OF_TEXT, 9) == Position{1, 3}, "position");
    check(codespan::byte(FILE_OF_TEXT, {1, 3}) == 9, "byte");
    check(codespan::apply_edits("abc", {{1, 2, "x"}}) == "axc", "apply_edits");
    check_thrown([] { codespan::position(FILE_OF_TEXT, 6); }, CODESPAN_ARGUMENT_CHAR_BOUNDARY, 0);
    check_thrown(
        [] {
            codespan::byte(FILE_OF_TEXT, {0, 9}, Encoding::Utf8);
        },
        CODESPAN_ARGUMENT_COLUMN_TOO_LARGE, 4);
    check_thrown(
        [] {
            codespan::apply_edits("abc", {{0, 1}, {4, 4}});
        },
        CODESPAN_ARGUMENT_EDIT_PAST_END, 1);
}
#else
void test_exceptions() {}
#endif

} // namespace

int main() {
    test_places();
    test_no_places();
    test_window();
    test_edits();
    test_random_edits();
    test_invalid_edits();
    test_exceptions();
    if (failures == 0)
        std::puts("test_editor: ok");
    return failures == 0 ? 0 : 1;
}
