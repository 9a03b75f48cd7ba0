/* codespan_editor.h: what an editor or a language server needs beside codespan.h: positions of
 * bytes in lines and code units, and edits of a text.
 *
 *     status = codespan_position(&file, CODESPAN_UTF16, byte, &position, &detail);
 *     status = codespan_byte(&file, CODESPAN_UTF16, &position, &byte, &detail);
 *     status = codespan_apply_edits(source, source_length, edits, 2, out, sizeof out, &written,
 *                                   &detail);
 *
 * What codespan.h says of codespan_emit holds of these calls: of pointers, texts, indices, memory,
 * threads and the ABI. No pointer is NULL but one beside a length of 0, and what a call sets
 * overlaps nothing else that is passed. CODESPAN_INVALID comes with a `detail`, whose argument is a
 * number of codespan.h or of this header, and codespan_status_text has a text for it. Otherwise
 * `detail` names no argument.
 */
#ifndef CODESPAN_EDITOR_H
#define CODESPAN_EDITOR_H

#include <codespan.h>

#ifdef __cplusplus
extern "C" {
#endif

/* Arguments, for codespan_detail: those of codespan.h go on. */
enum {
    CODESPAN_ARGUMENT_ENCODING = 25,
    /* A position has no byte, or a byte no position. */
    CODESPAN_ARGUMENT_LINE_TOO_LARGE = 26, /* no line of the file or the window, or one whose index
                                              is greater than UINT32_MAX */
    CODESPAN_ARGUMENT_COLUMN_TOO_LARGE = 27, /* past the end of the line; index: that end */
    CODESPAN_ARGUMENT_CHAR_BOUNDARY = 28,    /* inside a character */
    /* The edits. The index is that of the edit. */
    CODESPAN_ARGUMENT_EDIT_REPLACEMENT = 29, /* not UTF-8 */
    CODESPAN_ARGUMENT_EDIT_RESERVED = 30,    /* not 0 */
    CODESPAN_ARGUMENT_EDIT_REVERSED = 31,    /* the end is before the start */
    CODESPAN_ARGUMENT_EDIT_PAST_END = 32,    /* the end is past the end of the source */
    CODESPAN_ARGUMENT_EDIT_BOUNDARY = 33,    /* the start or the end is inside a character */
    CODESPAN_ARGUMENT_EDIT_OVERLAP = 34      /* the edit starts before another one ends that starts
                                              * before it, or with it */
};

/* ---- positions ---- */

/* The encodings whose code units the character of a position counts. The Language Server Protocol
 * has UTF-16 unless client and server agree on another one. */
enum {
    CODESPAN_UTF16 = 0, /* two code units for a character from U+10000 on, one for any other */
    CODESPAN_UTF8 = 1,  /* bytes */
    CODESPAN_UTF32 = 2  /* characters */
};

/* A position in a file, as the Language Server Protocol has it. */
typedef struct codespan_editor_position {
    uint32_t line;      /* index in the file of the line, from 0 */
    uint32_t character; /* code units of the line before the position */
} codespan_editor_position;

/* Sets *position to the position of a byte of a file, and returns CODESPAN_OK; or sets it to line 0
 * and character 0, and returns CODESPAN_INVALID or CODESPAN_OUT_OF_MEMORY. It takes time in
 * proportion to the length of the source.
 *
 * `byte` is an index in the file; one before a window counts as the start of the window. The byte
 * after a '\n' is on the next line. The end of the source has a position, on the last line. Lines
 * are those of codespan_emit, and the first one has the index first_line, also where there are
 * `lines`. The locations of the file change nothing.
 *
 * Of several invalid arguments `detail` names the first one of this order: name, source, lines,
 * locations and reserved words of the file, as codespan_emit checks them, with an index of 0;
 * `encoding`; `byte`. A byte past the end of its line, or of the source, is
 * CODESPAN_ARGUMENT_COLUMN_TOO_LARGE, with the length of the line in bytes as index; so is one
 * after more than UINT32_MAX code units of its line, with UINT32_MAX as index. */
uint32_t codespan_position(const codespan_file *file, uint32_t encoding, size_t byte,
                           codespan_editor_position *position, codespan_detail *detail);

/* Sets *byte to the index in the file, up to SIZE_MAX, of the byte at a position, and returns
 * CODESPAN_OK; or sets it to 0, and returns CODESPAN_INVALID or CODESPAN_OUT_OF_MEMORY. It takes
 * time in proportion to the length of the source.
 *
 * A position may be at the end of its line, which is after the '\n' where lines start after those,
 * and then is the start of the next line. A character past it is
 * CODESPAN_ARGUMENT_COLUMN_TOO_LARGE, with the length of the line in code units as index; the
 * Language Server Protocol takes such a position as the end of the line, before its '\n'. Of
 * several invalid arguments `detail` names the first one, in the order of codespan_position;
 * `position` is the last one. */
uint32_t codespan_byte(const codespan_file *file, uint32_t encoding,
                       const codespan_editor_position *position, size_t *byte,
                       codespan_detail *detail);

/* ---- edits ---- */

/* An edit of a text: the bytes from start to end are replaced. Nothing is replaced where start is
 * end, and nothing is inserted where the replacement is empty. */
typedef struct codespan_edit {
    size_t start; /* byte index in the text */
    size_t end;   /* byte index in the text, exclusive */
    codespan_text replacement;
    size_t reserved[2]; /* 0 */
} codespan_edit;

/* Writes a text after all edits to `out`, and returns CODESPAN_OK, CODESPAN_TOO_SMALL,
 * CODESPAN_OUT_OF_MEMORY or CODESPAN_INVALID; *written, *detail and `out` are set as by
 * codespan_emit. Ranges are those of `source`, and may touch. They are in any order; of edits of
 * one empty range the earlier one in `edits` comes first.
 *
 * Of several invalid arguments `detail` names the first one of this order: `source`, as
 * CODESPAN_ARGUMENT_FILE_SOURCE with an index of 0; the replacements; the reserved words; the
 * ranges, of which the first invalid one in `edits` is named; and last, where each range is valid,
 * an overlap. For that the edits are taken in the order of their starts, then of their ends, then
 * of `edits`, and the first one is named that starts before the end of the one before it. The
 * ranges are checked after memory was allocated, so CODESPAN_OUT_OF_MEMORY does not say that they
 * are valid. */
uint32_t codespan_apply_edits(const uint8_t *source, size_t source_length,
                              const codespan_edit *edits, size_t edits_length, uint8_t *out,
                              size_t out_length, size_t *written, codespan_detail *detail);

/* ---- helpers for callers, which are not symbols of the library ---- */

/* Returns an edit that replaces the bytes from start to end. */
static inline codespan_edit codespan_new_edit(size_t start, size_t end, codespan_text replacement) {
    codespan_edit edit = {start, end, replacement, {0, 0}};
    return edit;
}

#ifdef __cplusplus
}
#endif
#endif
