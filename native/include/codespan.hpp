/* codespan.hpp: compiler-style diagnostics for C++17, over codespan.h.
 *
 *     const codespan::File file{"main.c", source};
 *     codespan::Diagnostic diagnostic{codespan::Severity::Error, "unknown name"};
 *     diagnostic.labels = {codespan::primary(0, 12, 15, "not declared")};
 *     codespan::print(stderr, {file}, diagnostic);
 *
 * Texts are views in UTF-8: what they view has to live until the call returns. So a text that is
 * put together, such as "unknown name " + name, has to be in a std::string of its own: a Text is
 * not made of a temporary one. Byte indices start at 0 and count from the start of the file, ends
 * are exclusive; both may be any number.
 *
 * emit and print throw codespan::Error. Without exceptions (-fno-exceptions) call try_emit, which
 * returns a status in its place.
 */
#ifndef CODESPAN_HPP
#define CODESPAN_HPP

#include <codespan.h>
#include <codespan_stream.h>
#include <cstddef>
#include <cstdint>
#include <cstdio>
#include <exception>
#include <new>
#include <string>
#include <string_view>
#include <type_traits>
#include <utility>
#include <vector>

namespace codespan {

/* A view of a text, made of what a std::string_view is made of, but of no temporary std::string: it
 * would be gone before the call. Within one statement std::string_view(a + b) makes a view of one.
 */
class Text : public std::string_view {
  public:
    constexpr Text() noexcept = default;

    template <class T, class = std::enable_if_t<std::is_convertible_v<const T &, std::string_view>>>
    constexpr Text(const T &text) : std::string_view(text) {}

    template <class Allocator>
    Text(const std::basic_string<char, std::char_traits<char>, Allocator> &&) = delete;
};

/* How bad what a diagnostic reports is. */
enum class Severity : std::uint32_t {
    Help = CODESPAN_HELP,
    Note = CODESPAN_NOTE,
    Warning = CODESPAN_WARNING,
    Error = CODESPAN_ERROR,
    Bug = CODESPAN_BUG
};

/* What is rendered: all, or headers with notes, or headers alone. */
enum class DisplayStyle : std::uint32_t {
    Rich = CODESPAN_RICH,
    Medium = CODESPAN_MEDIUM,
    Short = CODESPAN_SHORT
};

/* How lanes of multi-line labels are rendered: as in the Rust crate, or without gaps. */
enum class Layout : std::uint32_t { Classic = CODESPAN_CLASSIC, Unbroken = CODESPAN_UNBROKEN };

/* Which characters are used. */
enum class Characters : std::uint32_t {
    Box = CODESPAN_BOX_CHARS,
    Ascii = CODESPAN_ASCII_CHARS,
    Custom = CODESPAN_CUSTOM_CHARS /* those of Config::chars */
};

/* The form of an output. codespan.h says what is safe. */
enum class Form : std::uint32_t {
    Terminal = CODESPAN_TERMINAL,      /* safe text, for a terminal or a log */
    Text = CODESPAN_TEXT,              /* text as it is passed */
    StyleMarks = CODESPAN_STYLE_MARKS, /* that text with style marks */
    Html = CODESPAN_HTML,              /* an HTML element */
    Svg = CODESPAN_SVG                 /* an SVG document */
};

/* The colors of an output. */
enum class Colors : std::uint32_t {
    Off = CODESPAN_COLORS_OFF,
    Default = CODESPAN_DEFAULT_STYLES,
    Own = CODESPAN_OWN_STYLES /* those of Config::styles */
};

/* A file, or a window of one: codespan_file of codespan.h says what the numbers mean. */
struct File {
    Text name;
    Text source = {};
    std::size_t first_byte = 0; /* byte index in the file of the first byte of `source` */
    std::size_t first_line = 0; /* how many lines are before it */
    std::vector<codespan_line> lines = {};         /* none: a line starts after each newline */
    std::vector<codespan_location> locations = {}; /* shown in place of computed ones */
};

/* A label: a range of bytes of a file, with a message. */
struct Label {
    std::uint32_t style; /* CODESPAN_PRIMARY or CODESPAN_SECONDARY */
    std::size_t file;    /* index in the files that are passed */
    std::size_t start;   /* byte index in the file */
    std::size_t end;     /* byte index in the file, exclusive */
    Text message = {};
};

/* Returns a primary label: what the diagnostic is about. */
inline Label primary(std::size_t file, std::size_t start, std::size_t end, Text message = {}) {
    return {CODESPAN_PRIMARY, file, start, end, message};
}

/* Returns a secondary label: what helps to understand a primary one. */
inline Label secondary(std::size_t file, std::size_t start, std::size_t end, Text message = {}) {
    return {CODESPAN_SECONDARY, file, start, end, message};
}

/* A diagnostic. */
struct Diagnostic {
    Severity severity;
    Text message;
    Text code = {};
    std::vector<Label> labels = {};
    std::vector<Text> notes = {};
};

/* A configuration. */
struct Config {
    DisplayStyle display_style = DisplayStyle::Rich;
    Layout layout = Layout::Classic;
    Form form = Form::Terminal;
    Colors colors = Colors::Off; /* print decides itself */
    Characters characters = Characters::Box;
    std::size_t tab_width = 4; /* cells between tab stops */
    std::size_t start_context_lines =
        3;                              /* lines shown after the first line of a multi-line label */
    std::size_t end_context_lines = 1;  /* lines shown before its last line */
    std::size_t before_label_lines = 0; /* lines shown before a label */
    std::size_t after_label_lines = 0;  /* lines shown after a label */
    codespan_chars chars = codespan_box_chars();
    codespan_styles styles = codespan_default_styles();
    std::size_t max_width = 0; /* cells of a source line: a wider one is shortened; 0: none */
};

/* Why a diagnostic was not rendered. */
class Error : public std::exception {
  public:
    Error(std::uint32_t status, codespan_detail detail) noexcept
        : status_(status), detail_(detail) {
        std::size_t length = 0;
        codespan_status_text(status, detail.argument, reinterpret_cast<std::uint8_t *>(text_),
                             sizeof text_ - 1, &length);
        text_[length < sizeof text_ ? length : 0] = '\0';
    }

    /* One line of ASCII. */
    const char *what() const noexcept override { return text_; }

    /* CODESPAN_OUT_OF_MEMORY, CODESPAN_FILE_MISSING or CODESPAN_INVALID. */
    std::uint32_t status() const noexcept { return status_; }

    /* Which argument is invalid: CODESPAN_ARGUMENT_NONE where memory ran out. */
    std::uint32_t argument() const noexcept { return detail_.argument; }

    /* The index of the file, label, note, character or style that is invalid. */
    std::size_t index() const noexcept { return detail_.index; }

  private:
    std::uint32_t status_;
    codespan_detail detail_;
    char text_[CODESPAN_STATUS_TEXT_MAX + 1];
};

/* What try_emit returns. */
struct Emitted {
    std::uint32_t status; /* CODESPAN_OK, or why there is no text */
    codespan_detail detail;
    std::string text;

    explicit operator bool() const noexcept { return status == CODESPAN_OK; }
};

namespace detail {

inline codespan_text text(std::string_view view) noexcept {
    return codespan_text_of(view.data(), view.size());
}

inline codespan_file c_file(const File &file) noexcept {
    return {text(file.name),       text(file.source),     file.first_byte,
            file.first_line,       file.lines.data(),     file.lines.size(),
            file.locations.data(), file.locations.size(), {}};
}

inline codespan_label c_label(const Label &label) noexcept {
    return {label.style, label.file, label.start, label.end, text(label.message), {}};
}

inline codespan_config c_config(const Config &config) noexcept {
    return {CODESPAN_ABI,
            static_cast<std::uint32_t>(config.display_style),
            static_cast<std::uint32_t>(config.layout),
            static_cast<std::uint32_t>(config.form),
            static_cast<std::uint32_t>(config.colors),
            static_cast<std::uint32_t>(config.characters),
            config.tab_width,
            config.start_context_lines,
            config.end_context_lines,
            config.before_label_lines,
            config.after_label_lines,
            config.chars,
            config.styles,
            config.max_width,
            {}};
}

/* The call, with the values of C++ as C has them. */
class Call {
  public:
    Call(const std::vector<File> &files, const Diagnostic &diagnostic, const Config &config)
        : config_(c_config(config)) {
        files_.reserve(files.size());
        for (const File &file : files)
            files_.push_back(c_file(file));
        labels_.reserve(diagnostic.labels.size());
        for (const Label &label : diagnostic.labels)
            labels_.push_back(c_label(label));
        notes_.reserve(diagnostic.notes.size());
        for (Text note : diagnostic.notes)
            notes_.push_back(text(note));
        diagnostic_ = {static_cast<std::uint32_t>(diagnostic.severity),
                       text(diagnostic.code),
                       text(diagnostic.message),
                       labels_.data(),
                       labels_.size(),
                       notes_.data(),
                       notes_.size(),
                       {}};
    }

    /* Renders into a text that grows to the length of the output. */
    Emitted emit() const {
        Emitted emitted{CODESPAN_TOO_SMALL, {CODESPAN_ARGUMENT_NONE, 0}, {}};
        std::size_t written = first_length;
        while (emitted.status == CODESPAN_TOO_SMALL) {
            emitted.text.resize(written);
            emitted.status = codespan_emit(files_.data(), files_.size(), &diagnostic_, &config_,
                                           reinterpret_cast<std::uint8_t *>(emitted.text.data()),
                                           emitted.text.size(), &written, &emitted.detail);
        }
        emitted.text.resize(written);
        return emitted;
    }

  private:
    static constexpr std::size_t first_length = 1024;
    std::vector<codespan_file> files_;
    std::vector<codespan_label> labels_;
    std::vector<codespan_text> notes_;
    codespan_diagnostic diagnostic_;
    codespan_config config_;
};

} // namespace detail

/* Renders a diagnostic, and returns the text or why there is none. */
inline Emitted try_emit(const std::vector<File> &files, const Diagnostic &diagnostic,
                        const Config &config = {}) {
#ifdef __cpp_exceptions
    try {
        return detail::Call(files, diagnostic, config).emit();
    } catch (const std::bad_alloc &) {
        return {CODESPAN_OUT_OF_MEMORY, {CODESPAN_ARGUMENT_NONE, 0}, {}};
    }
#else
    return detail::Call(files, diagnostic, config).emit();
#endif
}

#ifdef __cpp_exceptions
/* Renders a diagnostic, in the form of the configuration. Throws Error. */
inline std::string emit(const std::vector<File> &files, const Diagnostic &diagnostic,
                        const Config &config = {}) {
    Emitted emitted = try_emit(files, diagnostic, config);
    if (!emitted)
        throw Error(emitted.status, emitted.detail);
    return std::move(emitted.text);
}

/* Returns a diagnostic as an HTML element, for a page in UTF-8 that has the style sheet of
 * html_styles. Throws Error. */
inline std::string to_html(const std::vector<File> &files, const Diagnostic &diagnostic,
                           Config config = {}) {
    config.form = Form::Html;
    return emit(files, diagnostic, config);
}

/* Returns a diagnostic as an SVG document, in the styles of `config` where it has own ones. Throws
 * Error. */
inline std::string to_svg(const std::vector<File> &files, const Diagnostic &diagnostic,
                          Config config = {}) {
    config.form = Form::Svg;
    return emit(files, diagnostic, config);
}

/* Returns the CSS style sheet of the elements of to_html, which shows them in these styles, meant
 * for a dark page. Throws Error. */
inline std::string html_styles(const codespan_styles &styles = codespan_default_styles()) {
    std::string css;
    std::size_t written = 4096;
    std::uint32_t status = CODESPAN_TOO_SMALL;
    while (status == CODESPAN_TOO_SMALL) {
        css.resize(written);
        status = codespan_html_styles(&styles, reinterpret_cast<std::uint8_t *>(css.data()),
                                      css.size(), &written);
    }
    if (status != CODESPAN_OK)
        throw Error(status, {CODESPAN_ARGUMENT_COLOR, 0});
    css.resize(written);
    return css;
}

/* Renders a diagnostic as safe text and writes it to a stream, in colors where
 * codespan_stream_has_colors says so, whatever `config.form` and `config.colors` are; in the styles
 * of `config` where it has own ones. Returns whether all of it was written. Throws Error, and then
 * nothing is written. */
inline bool print(std::FILE *stream, const std::vector<File> &files, const Diagnostic &diagnostic,
                  Config config = {}) {
    config.form = Form::Terminal;
    if (!codespan_stream_has_colors(stream))
        config.colors = Colors::Off;
    else if (config.colors == Colors::Off)
        config.colors = Colors::Default;
    const std::string text = emit(files, diagnostic, config);
    return std::fwrite(text.data(), 1, text.size(), stream) == text.size();
}
#endif

} // namespace codespan

#endif
