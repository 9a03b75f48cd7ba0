/* codespan_editor.hpp: what an editor or a language server needs beside codespan.hpp, over
 * codespan_editor.h: positions of bytes in lines and code units, and edits of a text.
 *
 *     const codespan::Position position = codespan::position(file, byte);
 *     const std::size_t byte = codespan::byte(file, position, codespan::Encoding::Utf8);
 *     const std::string text = codespan::apply_edits(source, {{4, 7, "new"}, {9, 9, "more"}});
 *
 * These throw codespan::Error, whose argument() is a number of codespan_editor.h or of codespan.h.
 * Without exceptions (-fno-exceptions) call try_position, try_byte and try_apply_edits, which
 * return a status in its place.
 */
#ifndef CODESPAN_EDITOR_HPP
#define CODESPAN_EDITOR_HPP

#include <codespan.hpp>
#include <codespan_editor.h>

namespace codespan {

/* The encoding whose code units the character of a position counts. The Language Server Protocol
 * has UTF-16 unless client and server agree on another one. */
enum class Encoding : std::uint32_t {
    Utf16 = CODESPAN_UTF16, /* two code units for a character from U+10000 on, one for any other */
    Utf8 = CODESPAN_UTF8,   /* bytes */
    Utf32 = CODESPAN_UTF32  /* characters */
};

/* A position in a file, as the Language Server Protocol has it. */
struct Position {
    std::uint32_t line;      /* index in the file of the line, from 0 */
    std::uint32_t character; /* code units of the line before the position */

    friend constexpr bool operator==(Position left, Position right) noexcept {
        return left.line == right.line && left.character == right.character;
    }

    friend constexpr bool operator!=(Position left, Position right) noexcept {
        return !(left == right);
    }
};

/* An edit of a text: the bytes from start to end are replaced. Nothing is replaced where start is
 * end, and nothing is inserted where the replacement is empty. */
struct Edit {
    std::size_t start; /* byte index in the text */
    std::size_t end;   /* byte index in the text, exclusive */
    Text replacement = {};
};

/* What try_position and try_byte return. */
template <class T> struct Found {
    std::uint32_t status; /* CODESPAN_OK, or why there is no value */
    codespan_detail detail;
    T value;

    explicit operator bool() const noexcept { return status == CODESPAN_OK; }
};

/* Returns the position of a byte of a file, or why it has none: codespan_position of
 * codespan_editor.h says when. It takes time in proportion to the source. */
inline Found<Position> try_position(const File &file, std::size_t byte,
                                    Encoding encoding = Encoding::Utf16) noexcept {
    const codespan_file c_file = detail::c_file(file);
    codespan_editor_position position{};
    codespan_detail detail{};
    const std::uint32_t status =
        codespan_position(&c_file, static_cast<std::uint32_t>(encoding), byte, &position, &detail);
    return {status, detail, {position.line, position.character}};
}

/* Returns the byte at a position of a file, or why there is none: codespan_byte of
 * codespan_editor.h says when. It takes time in proportion to the source. */
inline Found<std::size_t> try_byte(const File &file, Position position,
                                   Encoding encoding = Encoding::Utf16) noexcept {
    const codespan_file c_file = detail::c_file(file);
    const codespan_editor_position c_position{position.line, position.character};
    Found<std::size_t> found{};
    found.status = codespan_byte(&c_file, static_cast<std::uint32_t>(encoding), &c_position,
                                 &found.value, &found.detail);
    return found;
}

namespace detail {

/* Edits a text, into one that has room for it and for all replacements. */
inline Emitted edited(std::string_view source, const std::vector<Edit> &edits) {
    const codespan_text c_source = text(source);
    std::vector<codespan_edit> c_edits;
    c_edits.reserve(edits.size());
    std::size_t written = source.size();
    for (const Edit &edit : edits) {
        c_edits.push_back({edit.start, edit.end, text(edit.replacement), {}});
        written += edit.replacement.size();
    }
    Emitted edited{CODESPAN_OK, {CODESPAN_ARGUMENT_NONE, 0}, std::string(written, '\0')};
    edited.status =
        codespan_apply_edits(c_source.bytes, c_source.length, c_edits.data(), c_edits.size(),
                             reinterpret_cast<std::uint8_t *>(edited.text.data()),
                             edited.text.size(), &written, &edited.detail);
    edited.text.resize(written);
    return edited;
}

} // namespace detail

/* Returns a text after all edits, or why there is none. All ranges are of `source`, so the edits
 * need no order. They may touch; insertions at one byte stay in their order, and come before what
 * is replaced there. The index of the detail is that of the edit that is invalid. */
inline Emitted try_apply_edits(std::string_view source, const std::vector<Edit> &edits) {
#ifdef __cpp_exceptions
    try {
        return detail::edited(source, edits);
    } catch (const std::bad_alloc &) {
        return {CODESPAN_OUT_OF_MEMORY, {CODESPAN_ARGUMENT_NONE, 0}, {}};
    }
#else
    return detail::edited(source, edits);
#endif
}

#ifdef __cpp_exceptions
/* Returns the position of a byte of a file. Throws Error, as try_position says. */
inline Position position(const File &file, std::size_t byte, Encoding encoding = Encoding::Utf16) {
    const Found<Position> found = try_position(file, byte, encoding);
    if (!found)
        throw Error(found.status, found.detail);
    return found.value;
}

/* Returns the byte index at a position of a file. Throws Error, as try_byte says. */
inline std::size_t byte(const File &file, Position position, Encoding encoding = Encoding::Utf16) {
    const Found<std::size_t> found = try_byte(file, position, encoding);
    if (!found)
        throw Error(found.status, found.detail);
    return found.value;
}

/* Returns a text after all edits, as try_apply_edits says. Throws Error. */
inline std::string apply_edits(std::string_view source, const std::vector<Edit> &edits) {
    Emitted edited = try_apply_edits(source, edits);
    if (!edited)
        throw Error(edited.status, edited.detail);
    return std::move(edited.text);
}
#endif

} // namespace codespan

#endif
