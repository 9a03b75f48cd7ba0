#include "cases.h"

enum {
    FILES_MAX = 3,
    LABELS_MAX = 6,
    NOTES_MAX = 3,
    LINES_MAX = 6,
    LOCATIONS_MAX = 3,
    TEXT_MAX = 1024
};

/* The forms and the color modes of the calls of a case. */
static const uint32_t FORM_NUMBERS[FORMS][2] = {
    [MARKED] = {CODESPAN_STYLE_MARKS, 0},
    [TEXT] = {CODESPAN_TEXT, 0},
    [TEXT_IN_COLORS] = {CODESPAN_TEXT, 1},
    [TEXT_IN_STYLES] = {CODESPAN_TEXT, 2},
    [SAFE] = {CODESPAN_TERMINAL, 0},
    [SAFE_IN_COLORS] = {CODESPAN_TERMINAL, 1},
    [SAFE_IN_STYLES] = {CODESPAN_TERMINAL, 2},
    [HTML] = {CODESPAN_HTML, 0},
    [SVG] = {CODESPAN_SVG, 0},
    [SVG_IN_STYLES] = {CODESPAN_SVG, 2},
};

/* What makes a case. Where `may_be_invalid`, most cases have invalid arguments. */
struct maker {
    struct random random;
    struct pages *pages;
    bool may_be_invalid;
};

#define PUT(maker, array, count)                                                                   \
    put((maker)->pages, &(maker)->random, array, (count) * sizeof(array)[0], _Alignof(size_t))

/* The same, or NULL for no values. */
#define PUT_OR_NULL(maker, array, count)                                                           \
    ((count) == 0 && one_in(&(maker)->random, 2) ? NULL : PUT(maker, array, count))

/* Returns whether what is made now may be invalid, as one of 8 things is where any may be. */
static bool may_be_invalid_now(struct maker *maker) {
    return maker->may_be_invalid && one_in(&maker->random, 8);
}

/* Returns a number of an enumeration. */
static uint32_t choice(struct maker *maker, uint32_t count) {
    if (may_be_invalid_now(maker))
        return (uint32_t)wide_number(&maker->random, count);
    return (uint32_t)below(&maker->random, count);
}

/* Sets one of the reserved words, where that may be invalid. */
static void set_reserved(struct maker *maker, size_t *words, size_t count) {
    if (may_be_invalid_now(maker) && one_in(&maker->random, 4))
        words[below(&maker->random, count)] = wide_number(&maker->random, 2);
}

/* ---- texts ---- */

struct piece {
    const char *bytes;
    size_t length;
};

#define PIECE(string)                                                                              \
    { string, sizeof string - 1 }

/* Parts of texts; the first ones are newlines, and the last ones are not UTF-8. */
static const struct piece PIECES[] = {
    PIECE("\n"),
    PIECE("\r\n"),
    PIECE("a"),
    PIECE("let x = 1;"),
    PIECE(" "),
    PIECE("\t"),
    PIECE("\303\251"),
    PIECE("\350\267\257"),
    PIECE("\360\237\227\273"),
    PIECE("e\314\201"),
    PIECE("\033[31m"),
    PIECE("\0"),
    PIECE("<a href='&amp;\">"),
    PIECE("\342\200\256\330\247"),
    PIECE("\342\200\215\302\255\357\277\276"),
    PIECE("\377"),
    PIECE("\303"),
    PIECE("\355\240\200"),
    PIECE("\364\220\200\200"),
};
enum { NEWLINES = 2, VALID_PIECES = 15, ALL_PIECES = sizeof PIECES / sizeof PIECES[0] };

/* Returns a text of at most this many pieces, of which one in `newlines` is a newline. */
static codespan_text make_text(struct maker *maker, size_t pieces_max, size_t newlines) {
    uint8_t bytes[TEXT_MAX];
    codespan_text text = {bytes, 0};
    bool is_invalid = may_be_invalid_now(maker);
    for (size_t count = below(&maker->random, pieces_max + 1); count > 0; count--) {
        size_t kinds = is_invalid ? ALL_PIECES : VALID_PIECES;
        size_t kind = below(&maker->random, one_in(&maker->random, newlines) ? NEWLINES : kinds);
        memcpy(bytes + text.length, PIECES[kind].bytes, PIECES[kind].length);
        text.length += PIECES[kind].length;
    }
    bool is_null = text.length == 0 && one_in(&maker->random, 2);
    text.bytes = is_null ? NULL : put(maker->pages, &maker->random, bytes, text.length, 1);
    return text;
}

static codespan_text make_message(struct maker *maker) { return make_text(maker, 8, 30); }

/* Returns the first index from `index` on at which a character starts or the text ends. */
static size_t boundary_from(codespan_text text, size_t index) {
    if (index > text.length)
        return text.length;
    while (index < text.length && (text.bytes[index] & 0xc0) == 0x80)
        index++;
    return index;
}

/* ---- files ---- */

/* Sets the lines of a file: some ranges of its source. */
static void set_lines(struct maker *maker, codespan_file *file) {
    codespan_line lines[LINES_MAX];
    size_t start = 0, count = 0, wanted = below(&maker->random, LINES_MAX + 1);
    while (count < wanted && start <= file->source.length) {
        size_t end = boundary_from(file->source, start + below(&maker->random, 12));
        codespan_line line = {file->first_byte + start, file->first_byte + end,
                              wide_number(&maker->random, 200)};
        if (may_be_invalid_now(maker))
            line.end = wide_number(&maker->random, file->source.length);
        lines[count++] = line;
        size_t next = end + below(&maker->random, 3);
        if (next > file->source.length)
            break;
        start = boundary_from(file->source, next > start ? next : start + 1);
        if (start == line.start - file->first_byte)
            break;
    }
    file->lines = PUT_OR_NULL(maker, lines, count);
    file->lines_length = count;
}

static void set_locations(struct maker *maker, codespan_file *file) {
    codespan_location locations[LOCATIONS_MAX];
    size_t byte = file->first_byte + below(&maker->random, 4);
    size_t count = below(&maker->random, LOCATIONS_MAX + 1);
    for (size_t i = 0; i < count; i++) {
        codespan_location location = {byte, wide_number(&maker->random, 90),
                                      wide_number(&maker->random, 90)};
        locations[i] = location;
        byte = may_be_invalid_now(maker) ? wide_number(&maker->random, 90)
                                         : byte + 1 + below(&maker->random, 8);
    }
    file->locations = PUT_OR_NULL(maker, locations, count);
    file->locations_length = count;
}

static codespan_file make_file(struct maker *maker) {
    codespan_text name = make_message(maker);
    codespan_file file = codespan_new_file(name, make_text(maker, 40, 5));
    if (one_in(&maker->random, 4)) {
        size_t number = wide_number(&maker->random, 5000);
        file.first_byte = maker->may_be_invalid ? number : number >> 1;
        file.first_line = wide_number(&maker->random, 100);
    }
    if (one_in(&maker->random, 3))
        set_lines(maker, &file);
    if (one_in(&maker->random, 3))
        set_locations(maker, &file);
    set_reserved(maker, file.reserved, 2);
    return file;
}

/* ---- diagnostics ---- */

/* Returns an index for an end of a label: mostly one of the file, or just past it. */
static size_t make_index(struct maker *maker, const codespan_file *file) {
    if (file == NULL || one_in(&maker->random, 8))
        return wide_number(&maker->random, 100);
    return file->first_byte + below(&maker->random, file->source.length + 2);
}

static codespan_label make_label(struct maker *maker, const codespan_file *files,
                                 size_t files_length) {
    size_t index = one_in(&maker->random, 40) ? wide_number(&maker->random, files_length)
                                              : below(&maker->random, files_length + 1);
    if (files_length > 0 && index == files_length && !one_in(&maker->random, 20))
        index--;
    const codespan_file *file = index < files_length ? &files[index] : NULL;
    size_t start = make_index(maker, file);
    size_t end =
        one_in(&maker->random, 2) ? make_index(maker, file) : start + below(&maker->random, 6);
    uint32_t style = choice(maker, CODESPAN_SECONDARY + 1);
    codespan_label label = codespan_new_label(style, index, start, end, make_message(maker));
    set_reserved(maker, label.reserved, 2);
    return label;
}

static codespan_diagnostic make_diagnostic(struct maker *maker, const codespan_label *labels,
                                           size_t labels_length) {
    codespan_text notes[NOTES_MAX];
    size_t notes_length = below(&maker->random, NOTES_MAX + 1);
    for (size_t i = 0; i < notes_length; i++)
        notes[i] = make_message(maker);
    uint32_t severity = choice(maker, CODESPAN_BUG + 1);
    codespan_diagnostic diagnostic = codespan_new_diagnostic(severity, make_message(maker));
    diagnostic.code = make_message(maker);
    diagnostic.labels = PUT_OR_NULL(maker, labels, labels_length);
    diagnostic.labels_length = labels_length;
    diagnostic.notes = PUT_OR_NULL(maker, notes, notes_length);
    diagnostic.notes_length = notes_length;
    set_reserved(maker, diagnostic.reserved, 4);
    return diagnostic;
}

/* ---- configurations ---- */

static uint32_t make_character(struct maker *maker) {
    static const uint32_t characters[] = {'|', '\t', 0, 0x301, 0x256d, 0x8def, 0x1f5fb, 0x10ffff};
    if (may_be_invalid_now(maker))
        return (uint32_t)any_number(&maker->random);
    return characters[below(&maker->random, sizeof characters / sizeof characters[0])];
}

static codespan_chars make_chars(struct maker *maker) {
    codespan_chars chars = codespan_box_chars();
    chars.snippet_start = make_message(maker);
    uint32_t *fields[] = {&chars.source_border_left, &chars.single_primary_caret,
                          &chars.multi_top_left,     &chars.multi_top,
                          &chars.multi_bottom_left,  &chars.pointer_left};
    for (size_t i = 0; i < sizeof fields / sizeof fields[0]; i++)
        *fields[i] = make_character(maker);
    return chars;
}

static codespan_color_spec make_color(struct maker *maker) {
    uint32_t fg = choice(maker, CODESPAN_WHITE + 1), bg = choice(maker, CODESPAN_WHITE + 1);
    codespan_color_spec color = {fg, bg, (uint32_t)below(&maker->random, 3),
                                 (uint32_t)below(&maker->random, 3)};
    return color;
}

static codespan_styles make_styles(struct maker *maker) {
    codespan_styles styles = codespan_default_styles();
    styles.header_error = make_color(maker);
    styles.header_message = make_color(maker);
    styles.primary_label_warning = make_color(maker);
    styles.secondary_label = make_color(maker);
    styles.line_number = make_color(maker);
    styles.note_bullet = make_color(maker);
    return styles;
}

static codespan_config make_config(struct maker *maker) {
    codespan_config config = codespan_default_config();
    if (may_be_invalid_now(maker))
        config.abi = (uint32_t)wide_number(&maker->random, 2);
    config.display_style = choice(maker, CODESPAN_SHORT + 1);
    config.layout = choice(maker, CODESPAN_UNBROKEN + 1);
    config.characters = choice(maker, CODESPAN_CUSTOM_CHARS + 1);
    config.tab_width = wide_number(&maker->random, 9);
    config.start_context_lines = wide_number(&maker->random, 3);
    config.end_context_lines = wide_number(&maker->random, 3);
    config.before_label_lines = wide_number(&maker->random, 3);
    config.after_label_lines = wide_number(&maker->random, 3);
    config.chars = make_chars(maker);
    config.styles = make_styles(maker);
    if (one_in(&maker->random, 3))
        config.max_width = wide_number(&maker->random, 60);
    set_reserved(maker, config.reserved, 7);
    return config;
}

/* ---- cases ---- */

struct fuzz_case make_case(uint64_t number, struct pages *pages) {
    struct maker maker = {random_of(number), pages, number % 4 == 3};
    clear_pages(pages);
    codespan_file files[FILES_MAX];
    size_t files_length = below(&maker.random, FILES_MAX + 1);
    for (size_t i = 0; i < files_length; i++)
        files[i] = make_file(&maker);
    struct fuzz_case made = {.is_valid = !maker.may_be_invalid};
    codespan_label labels[LABELS_MAX];
    bool has_labels = files_length > 0 || one_in(&maker.random, 8);
    size_t labels_length = has_labels ? below(&maker.random, LABELS_MAX + 1) : 0;
    for (size_t i = 0; i < labels_length; i++) {
        labels[i] = make_label(&maker, files, files_length);
        made.labels_without_file += labels[i].file >= files_length;
    }
    codespan_diagnostic diagnostic[] = {make_diagnostic(&maker, labels, labels_length)};
    codespan_config config[] = {make_config(&maker)};
    made.styles = config->styles;
    struct call call = {PUT(&maker, files, files_length), files_length, PUT(&maker, diagnostic, 1),
                        NULL};
    for (size_t form = 0; form < FORMS; form++) {
        bool is_other = may_be_invalid_now(&maker);
        config->form = is_other ? choice(&maker, CODESPAN_SVG + 1) : FORM_NUMBERS[form][0];
        config->color_mode = is_other ? choice(&maker, 3) : FORM_NUMBERS[form][1];
        call.config = PUT(&maker, config, 1);
        made.calls[form] = call;
    }
    return made;
}
