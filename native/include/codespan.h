/* codespan.h: compiler-style diagnostics, rendered by a library whose output is proved.
 *
 *     codespan_config config = codespan_default_config();
 *     status = codespan_emit(files, 1, &diagnostic, &config, out, sizeof out, &written, &detail);
 *
 * The call that renders, codespan_emit, returns a status whatever the numbers and the bytes of its
 * arguments are. It keeps nothing after it returns and has no global state: any number of threads
 * may call it at once, each with its own `out`, `written` and `detail`.
 *
 * A caller has to ensure only what a C type can not state:
 *  - each pointer is aligned and points to as many values as the length beside it says. It may be
 *    NULL where that length is 0, so a struct may be {0} but for `abi`. `diagnostic`, `config`,
 *    `written` and `detail` are not NULL;
 *  - `out`, `written` and `detail` overlap nothing else that is passed;
 *  - nothing that is passed changes while the call runs.
 *
 * Lengths and byte indices are in bytes, indices start at 0, and ends are exclusive. Texts are
 * UTF-8 without a final NUL, and so is `out`. Enumerations are passed as uint32_t; with an unknown
 * number a call returns CODESPAN_INVALID.
 *
 * Memory: the call allocates with the `malloc` and `realloc` of the program and frees all of it
 * before it returns, so there is nothing to free. Where an allocation fails it returns
 * CODESPAN_OUT_OF_MEMORY; it never ends the program. It needs at most 32 KiB of stack. An output of
 * a few rows fits in 4096 bytes.
 *
 * For C11 and C++11. CODESPAN_ABI fixes the layouts of the structs and the meaning of each field
 * and number: a library of another ABI returns CODESPAN_INVALID where `abi` is not its own, which
 * is the first field of the configuration in each. Within an ABI a new field may take the place of
 * reserved words, which mean nothing while they are 0, and there may be new functions and numbers,
 * but no new status. The bytes of an output may change with a minor version, and CHANGELOG.md then
 * says how; in a patch they do not.
 */
#ifndef CODESPAN_H
#define CODESPAN_H

#include <stddef.h>
#include <stdint.h>
#include <string.h>

#ifdef __cplusplus
extern "C" {
#endif

/* The version of this header, as the package that it came with; codespan_version returns that of
 * the library. */
#define CODESPAN_VERSION "0.1.0"

/* The ABI version of this header; codespan_abi_version returns that of the library. */
#define CODESPAN_ABI 2u

/* The greatest tab width, in cells: a greater one is taken as this one, so that a tab can not grow
 * the output without bound. */
#define CODESPAN_TAB_WIDTH_MAX 1024u

/* A text: bytes of the caller, in UTF-8. */
typedef struct codespan_text {
    const uint8_t *bytes;
    size_t length; /* bytes */
} codespan_text;

/* ---- files ---- */

/* A line of a file: the bytes from start to end. Its newline may be one of them or not. */
typedef struct codespan_line {
    size_t start;  /* byte index in the file */
    size_t end;    /* byte index in the file, exclusive */
    size_t number; /* the line number that is shown */
} codespan_line;

/* The location that is shown for a byte at which a label starts: a line and a column number. */
typedef struct codespan_location {
    size_t byte; /* byte index in the file */
    size_t line_number;
    size_t column_number;
} codespan_location;

/* A file, or a window of a large one.
 *
 * `source` is the whole file, and then first_byte and first_line are 0; or a window of it, some
 * whole lines one after another, and then they say where it starts. All byte indices, those of
 * labels too, count from the start of the file, not of the window. An index before the window
 * counts as the start of the window; in lines and locations it does so before they are checked. A
 * label past the end of the window is rendered as in a file that ends there; a line past it is
 * invalid.
 *
 * A diagnostic over a window is that over the file where the window has the lines from
 * before_label_lines before the first line that a label starts or ends on, to after_label_lines
 * after the last such line. The line of an end is that of the exclusive end: for a label up to the
 * start of a line, that line too. */
typedef struct codespan_file {
    codespan_text name;
    codespan_text source;
    size_t first_byte; /* byte index in the file of the first byte of `source` */
    /* The index in the file, from 0, of the first line of `source`: the number of lines before it.
     * codespan_emit does not read it where there are `lines`. */
    size_t first_line;
    /* The lines of `source`, in ascending order. Where there are none, a line starts after each
     * '\n', and line numbers count on from first_line + 1, up to SIZE_MAX. Where there are some,
     * the first one starts at first_byte, each later one starts after the start of the one before
     * it and not before its end, none ends before its start or past the end of `source`, and all
     * starts and ends are character boundaries. */
    const codespan_line *lines;
    size_t lines_length;
    /* Locations that are shown in place of computed ones, in strictly ascending order of their
     * bytes. A computed one has the number of the byte's line, and a column number in characters
     * from 1. */
    const codespan_location *locations;
    size_t locations_length;
    size_t reserved[2]; /* 0 */
} codespan_file;

/* ---- diagnostics ---- */

/* The style of a label: a primary one has the caret ^, in the color of the severity, a secondary
 * one - or ', unless `chars` of the configuration has others. */
enum { CODESPAN_PRIMARY = 0, CODESPAN_SECONDARY = 1 };

/* A label: a range of bytes of a file, with a message. */
typedef struct codespan_label {
    uint32_t style; /* CODESPAN_PRIMARY or CODESPAN_SECONDARY */
    size_t file;    /* index in the files that are passed to codespan_emit */
    size_t start;   /* byte index in the file */
    size_t end;     /* byte index in the file, exclusive. Both may be any number: the end may be
                     * before the start, and either past the end of the file or inside a
                     * character */
    codespan_text message; /* empty: none */
    size_t reserved[2];    /* 0 */
} codespan_label;

/* A severity. */
enum {
    CODESPAN_HELP = 0,
    CODESPAN_NOTE = 1,
    CODESPAN_WARNING = 2,
    CODESPAN_ERROR = 3,
    CODESPAN_BUG = 4
};

/* A diagnostic. */
typedef struct codespan_diagnostic {
    uint32_t severity;  /* CODESPAN_HELP to CODESPAN_BUG */
    codespan_text code; /* such as E0499; empty: none */
    codespan_text message;
    const codespan_label *labels;
    size_t labels_length;
    const codespan_text *notes; /* shown after the source, each behind a bullet */
    size_t notes_length;
    size_t reserved[4]; /* 0 */
} codespan_diagnostic;

/* ---- configuration ---- */

/* What is rendered. */
enum {
    CODESPAN_RICH = 0,   /* a header, the source with its labels, and the notes */
    CODESPAN_MEDIUM = 1, /* a header for each primary label, or one without a location where there
                          * is none, and the notes */
    CODESPAN_SHORT = 2   /* the headers of CODESPAN_MEDIUM alone */
};

/* How lanes of multi-line labels are rendered, and which line numbers the padding width fits. */
enum {
    CODESPAN_CLASSIC = 0, /* as in the Rust crate codespan-reporting: a lane may have a gap on the
                           * first line of its label, and the padding width fits the numbers of the
                           * lines from the start to the end of each label */
    CODESPAN_UNBROKEN = 1 /* lanes have no gaps, and the padding width fits all line numbers */
};

/* Which characters are used. */
enum {
    CODESPAN_BOX_CHARS = 0,   /* box drawing */
    CODESPAN_ASCII_CHARS = 1, /* ASCII */
    CODESPAN_CUSTOM_CHARS = 2 /* those of `chars` */
};

/* The form of an output.
 *
 * Text that is **safe** has what a terminal shows: without control characters but tab and newline,
 * without directional controls and other characters that some terminals show in other cells than
 * carets count, and with U+FFFD for noncharacters and separators. So no name, source or message can
 * start an escape sequence or reorder a row, and each caret is under its character. HTML and SVG
 * show the same characters. The two forms of text that is not safe are for a file, or for a program
 * that makes another form of them. */
enum {
    CODESPAN_TERMINAL = 0,    /* safe text, for a terminal or a log */
    CODESPAN_TEXT = 1,        /* text: names, sources and messages as they are passed */
    CODESPAN_STYLE_MARKS = 2, /* that text, with style marks: CODESPAN_STYLE_MARK_BYTE, which UTF-8
                               * never has, and a number */
    CODESPAN_HTML = 3,        /* an HTML element, `pre`, for a page in UTF-8 that has the style
                               * sheet of codespan_html_styles */
    CODESPAN_SVG = 4          /* an SVG document, with its default background and size */
};

/* The colors of an output: the escape sequences of CODESPAN_TERMINAL and CODESPAN_TEXT, and with
 * CODESPAN_OWN_STYLES those of CODESPAN_SVG, which otherwise has the default styles. The other
 * forms do not depend on it. */
enum {
    CODESPAN_COLORS_OFF = 0,
    CODESPAN_DEFAULT_STYLES = 1,
    CODESPAN_OWN_STYLES = 2 /* those of `styles` */
};

/* The numbers of style marks, the changes of style between texts. To those of headers and labels
 * the number of the severity is added. A reset ends each style. */
enum {
    CODESPAN_STYLE_MARK_HEADER = 128, /* 128 to 132 */
    CODESPAN_STYLE_MARK_HEADER_MESSAGE = 133,
    CODESPAN_STYLE_MARK_LINE_NUMBER = 134,
    CODESPAN_STYLE_MARK_NOTE_BULLET = 135,
    CODESPAN_STYLE_MARK_SOURCE_BORDER = 136,
    CODESPAN_STYLE_MARK_PRIMARY_LABEL = 137,   /* 137 to 141 */
    CODESPAN_STYLE_MARK_SECONDARY_LABEL = 142, /* 142 to 146 */
    CODESPAN_STYLE_MARK_RESET = 147
};

/* The byte before the number of a style mark. */
#define CODESPAN_STYLE_MARK_BYTE 255u

/* The characters of the output, each by its code point. codespan_box_chars has those of box
 * drawing. */
typedef struct codespan_chars {
    codespan_text snippet_start; /* before a locus */
    uint32_t source_border_left;
    uint32_t source_border_left_break;
    uint32_t note_bullet;
    uint32_t single_primary_caret;
    uint32_t single_secondary_caret;
    uint32_t multi_primary_caret_start;
    uint32_t multi_primary_caret_end;
    uint32_t multi_secondary_caret_start;
    uint32_t multi_secondary_caret_end;
    uint32_t multi_top_left;
    uint32_t multi_top;
    uint32_t multi_bottom_left;
    uint32_t multi_bottom;
    uint32_t multi_left;
    uint32_t pointer_left;
} codespan_chars;

/* A color of a terminal. */
enum {
    CODESPAN_NO_COLOR = 0, /* the color of plain text */
    CODESPAN_BLACK = 1,
    CODESPAN_RED = 2,
    CODESPAN_GREEN = 3,
    CODESPAN_YELLOW = 4,
    CODESPAN_BLUE = 5,
    CODESPAN_MAGENTA = 6,
    CODESPAN_CYAN = 7,
    CODESPAN_WHITE = 8
};

/* A style of text. */
typedef struct codespan_color_spec {
    uint32_t fg;      /* CODESPAN_NO_COLOR to CODESPAN_WHITE */
    uint32_t bg;      /* the same, for the background */
    uint32_t bold;    /* bold unless 0 */
    uint32_t intense; /* unless 0 both colors are the bright ones */
} codespan_color_spec;

/* The styles of the parts of the output. */
typedef struct codespan_styles {
    codespan_color_spec header_bug;
    codespan_color_spec header_error;
    codespan_color_spec header_warning;
    codespan_color_spec header_note;
    codespan_color_spec header_help;
    codespan_color_spec header_message;
    codespan_color_spec primary_label_bug;
    codespan_color_spec primary_label_error;
    codespan_color_spec primary_label_warning;
    codespan_color_spec primary_label_note;
    codespan_color_spec primary_label_help;
    codespan_color_spec secondary_label;
    codespan_color_spec line_number;
    codespan_color_spec source_border;
    codespan_color_spec note_bullet;
} codespan_styles;

/* A configuration. codespan_default_config returns one that a caller may change. */
typedef struct codespan_config {
    uint32_t abi;               /* CODESPAN_ABI, for all structs that are passed */
    uint32_t display_style;     /* CODESPAN_RICH to CODESPAN_SHORT */
    uint32_t layout;            /* CODESPAN_CLASSIC or CODESPAN_UNBROKEN */
    uint32_t form;              /* CODESPAN_TERMINAL to CODESPAN_SVG */
    uint32_t color_mode;        /* CODESPAN_COLORS_OFF to CODESPAN_OWN_STYLES */
    uint32_t characters;        /* CODESPAN_BOX_CHARS to CODESPAN_CUSTOM_CHARS */
    size_t tab_width;           /* cells between tab stops, up to CODESPAN_TAB_WIDTH_MAX */
    size_t start_context_lines; /* lines shown after the first line of a multi-line label */
    size_t end_context_lines;   /* lines shown before its last line */
    size_t before_label_lines;  /* lines shown before a label */
    size_t after_label_lines;   /* lines shown after a label */
    codespan_chars chars;       /* read only for CODESPAN_CUSTOM_CHARS */
    codespan_styles styles;     /* read only for CODESPAN_OWN_STYLES */
    size_t max_width;           /* greatest width of a source line, in cells, with what is before
                                 * it: a wider one is shortened, and `...` stands for what is left
                                 * out. 0: none, lines are whole */
    size_t reserved[7];         /* 0 */
} codespan_config;

/* ---- the call ---- */

/* Statuses. */
enum {
    CODESPAN_OK = 0,            /* out[0..*written) is the output */
    CODESPAN_TOO_SMALL = 1,     /* *written is the length of the output, in bytes */
    CODESPAN_OUT_OF_MEMORY = 2, /* an allocation failed */
    CODESPAN_FILE_MISSING = 3,  /* `detail` names a label whose `file` is not one of the files */
    CODESPAN_INVALID = 4        /* `detail` names another argument, which is invalid */
};

/* Arguments, for codespan_detail, in the order in which they are checked. */
enum {
    CODESPAN_ARGUMENT_NONE = 0,
    CODESPAN_ARGUMENT_ABI = 1,
    CODESPAN_ARGUMENT_DISPLAY_STYLE = 2,
    CODESPAN_ARGUMENT_LAYOUT = 3,
    CODESPAN_ARGUMENT_FORM = 4,
    CODESPAN_ARGUMENT_COLOR_MODE = 5,
    CODESPAN_ARGUMENT_CHARACTERS = 6,
    CODESPAN_ARGUMENT_SNIPPET_START = 7, /* not UTF-8 */
    CODESPAN_ARGUMENT_CHARACTER = 8,     /* not a Unicode scalar value; index: the field, from 0 for
                                            source_border_left to 14 for pointer_left */
    CODESPAN_ARGUMENT_COLOR = 9, /* index: the style, from 0 for header_bug to 14 for note_bullet */
    CODESPAN_ARGUMENT_CONFIG_RESERVED = 10, /* not 0 */
    CODESPAN_ARGUMENT_FILE_NAME = 11,       /* not UTF-8; index: the file */
    CODESPAN_ARGUMENT_FILE_SOURCE = 12,     /* not UTF-8; index: the file */
    CODESPAN_ARGUMENT_FILE_LINES = 13,      /* index: the file */
    CODESPAN_ARGUMENT_FILE_LOCATIONS = 14,  /* index: the file */
    CODESPAN_ARGUMENT_FILE_RESERVED = 15,   /* not 0; index: the file */
    CODESPAN_ARGUMENT_SEVERITY = 16,
    CODESPAN_ARGUMENT_CODE = 17,                /* not UTF-8 */
    CODESPAN_ARGUMENT_MESSAGE = 18,             /* not UTF-8 */
    CODESPAN_ARGUMENT_DIAGNOSTIC_RESERVED = 19, /* not 0 */
    CODESPAN_ARGUMENT_LABEL_STYLE = 20,         /* index: the label */
    CODESPAN_ARGUMENT_LABEL_MESSAGE = 21,       /* not UTF-8; index: the label */
    CODESPAN_ARGUMENT_LABEL_FILE = 22,          /* with CODESPAN_FILE_MISSING; index: the label */
    CODESPAN_ARGUMENT_LABEL_RESERVED = 23,      /* not 0; index: the label */
    CODESPAN_ARGUMENT_NOTE = 24                 /* not UTF-8; index: the note */
};

/* Which argument is invalid. */
typedef struct codespan_detail {
    uint32_t argument; /* CODESPAN_ARGUMENT_NONE unless the status is CODESPAN_INVALID or
                        * CODESPAN_FILE_MISSING */
    size_t index;      /* of the file, label, note, character or style, from 0, as above; 0 where
                        * there is only one such argument */
} codespan_detail;

/* Renders a diagnostic over files into `out`, which has room for out_length bytes, and returns a
 * status. *written and *detail are always set.
 *
 * CODESPAN_OK: out[0..*written) is the output, and the rest of `out` is unchanged.
 * CODESPAN_TOO_SMALL: *written is the length of the output, more than out_length, and `out` is
 * unchanged. Call again with that much room: the output is the same. So a call with an out_length
 * of 0 sets *written to the length.
 * Any other status: *written is 0, and `out` is unchanged.
 *
 * The arguments are checked before anything is allocated. Where one is invalid the status is
 * CODESPAN_INVALID, or CODESPAN_FILE_MISSING for the file of a label. Of several, `detail` names
 * the one with the lowest number, and of those with one number the one with the lowest index. Where
 * all are valid the status is one of the first three. */
uint32_t codespan_emit(const codespan_file *files, size_t files_length,
                       const codespan_diagnostic *diagnostic, const codespan_config *config,
                       uint8_t *out, size_t out_length, size_t *written, codespan_detail *detail);

/* Writes to `out` the CSS style sheet of the elements of CODESPAN_HTML, which shows them in these
 * styles, meant for a dark page. Returns CODESPAN_OK, CODESPAN_TOO_SMALL or CODESPAN_OUT_OF_MEMORY
 * and sets *written, as codespan_emit does; and CODESPAN_INVALID, with a *written of 0, where a
 * color is not one of those above. */
uint32_t codespan_html_styles(const codespan_styles *styles, uint8_t *out, size_t out_length,
                              size_t *written);

/* Returns the ABI version of the library; CODESPAN_ABI is the header's. */
uint32_t codespan_abi_version(void);

/* Returns the version of the library, such as 0.1.0, as a string that lives as long as the library;
 * CODESPAN_VERSION is the header's. */
const char *codespan_version(void);

/* Writes what a status means, in English, to `text`, which has room for text_length bytes: one line
 * of ASCII, without a newline or a NUL, of at most CODESPAN_STATUS_TEXT_MAX bytes. For
 * CODESPAN_INVALID it writes what the argument must be; `argument` is that of a codespan_detail,
 * and is read for this status alone. Returns CODESPAN_OK or CODESPAN_TOO_SMALL and sets *written,
 * as codespan_emit does. */
uint32_t codespan_status_text(uint32_t status, uint32_t argument, uint8_t *text, size_t text_length,
                              size_t *written);

/* The greatest length of a text of codespan_status_text, in bytes. */
#define CODESPAN_STATUS_TEXT_MAX 128u

/* ---- helpers for callers, which are not symbols of the library ---- */

/* Returns the text of these bytes. */
static inline codespan_text codespan_text_of(const char *bytes, size_t length) {
    codespan_text text = {(const uint8_t *)bytes, length};
    return text;
}

/* Returns the empty text. */
static inline codespan_text codespan_no_text(void) { return codespan_text_of(NULL, 0); }

/* Returns the text of a string that ends with a NUL; NULL is the empty text. */
static inline codespan_text codespan_text_from(const char *string) {
    return codespan_text_of(string, string == NULL ? 0 : strlen(string));
}

/* Returns a whole file, whose lines start after newlines. */
static inline codespan_file codespan_new_file(codespan_text name, codespan_text source) {
    codespan_file file = {name, source, 0, 0, NULL, 0, NULL, 0, {0, 0}};
    return file;
}

/* Returns a label of the bytes from start to end of files[file]. */
static inline codespan_label codespan_new_label(uint32_t style, size_t file, size_t start,
                                                size_t end, codespan_text message) {
    codespan_label label = {style, file, start, end, message, {0, 0}};
    return label;
}

/* Returns a diagnostic with no code, labels or notes. */
static inline codespan_diagnostic codespan_new_diagnostic(uint32_t severity,
                                                          codespan_text message) {
    codespan_diagnostic diagnostic = {severity, codespan_no_text(), message, NULL, 0, NULL,
                                      0,        {0, 0, 0, 0}};
    return diagnostic;
}

/* Returns the characters of box drawing. */
static inline codespan_chars codespan_box_chars(void) {
    codespan_chars chars = {codespan_text_of("\xe2\x94\x8c\xe2\x94\x80", 6),
                            0x2502, /* source_border_left */
                            0xb7,   /* source_border_left_break */
                            0x3d,   /* note_bullet */
                            0x5e,   /* single_primary_caret */
                            0x2d,   /* single_secondary_caret */
                            0x5e,   /* multi_primary_caret_start */
                            0x5e,   /* multi_primary_caret_end */
                            0x27,   /* multi_secondary_caret_start */
                            0x27,   /* multi_secondary_caret_end */
                            0x256d, /* multi_top_left */
                            0x2500, /* multi_top */
                            0x2570, /* multi_bottom_left */
                            0x2500, /* multi_bottom */
                            0x2502, /* multi_left */
                            0x2502 /* pointer_left */};
    return chars;
}

/* Returns the default styles, those of CODESPAN_DEFAULT_STYLES. */
static inline codespan_styles codespan_default_styles(void) {
    codespan_styles styles = {
        {CODESPAN_RED, CODESPAN_NO_COLOR, 1, 1},      /* header_bug */
        {CODESPAN_RED, CODESPAN_NO_COLOR, 1, 1},      /* header_error */
        {CODESPAN_YELLOW, CODESPAN_NO_COLOR, 1, 1},   /* header_warning */
        {CODESPAN_GREEN, CODESPAN_NO_COLOR, 1, 1},    /* header_note */
        {CODESPAN_CYAN, CODESPAN_NO_COLOR, 1, 1},     /* header_help */
        {CODESPAN_NO_COLOR, CODESPAN_NO_COLOR, 1, 1}, /* header_message */
        {CODESPAN_RED, CODESPAN_NO_COLOR, 0, 0},      /* primary_label_bug */
        {CODESPAN_RED, CODESPAN_NO_COLOR, 0, 0},      /* primary_label_error */
        {CODESPAN_YELLOW, CODESPAN_NO_COLOR, 0, 0},   /* primary_label_warning */
        {CODESPAN_GREEN, CODESPAN_NO_COLOR, 0, 0},    /* primary_label_note */
        {CODESPAN_CYAN, CODESPAN_NO_COLOR, 0, 0},     /* primary_label_help */
        {CODESPAN_CYAN, CODESPAN_NO_COLOR, 0, 0},     /* secondary_label */
        {CODESPAN_CYAN, CODESPAN_NO_COLOR, 0, 0},     /* line_number */
        {CODESPAN_CYAN, CODESPAN_NO_COLOR, 0, 0},     /* source_border */
        {CODESPAN_CYAN, CODESPAN_NO_COLOR, 0, 0}      /* note_bullet */
    };
    return styles;
}

/* Returns the default configuration: rich style, classic layout, safe text without colors, box
 * drawing, tab stops every 4 cells, lines of any width. */
static inline codespan_config codespan_default_config(void) {
    codespan_config config = {CODESPAN_ABI,
                              CODESPAN_RICH,
                              CODESPAN_CLASSIC,
                              CODESPAN_TERMINAL,
                              CODESPAN_COLORS_OFF,
                              CODESPAN_BOX_CHARS,
                              4, /* tab_width */
                              3, /* start_context_lines */
                              1, /* end_context_lines */
                              0, /* before_label_lines */
                              0, /* after_label_lines */
                              codespan_box_chars(),
                              codespan_default_styles(),
                              0, /* max_width */
                              {0, 0, 0, 0, 0, 0, 0}};
    return config;
}

#ifdef __cplusplus
}
#endif
#endif
