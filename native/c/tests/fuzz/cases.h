/* Random arguments of calls. */
#ifndef CASES_H
#define CASES_H

#include "../check.h"
#include "pages.h"

/* The forms in which an output is rendered, each with a color mode. */
enum {
    MARKED,
    TEXT,
    TEXT_IN_COLORS,
    TEXT_IN_STYLES,
    SAFE,
    SAFE_IN_COLORS,
    SAFE_IN_STYLES,
    HTML,
    SVG,
    SVG_IN_STYLES,
    FORMS
};

struct fuzz_case {
    struct call calls[FORMS]; /* the same but for the form, if that is valid */
    codespan_styles styles;
    bool is_valid;              /* every argument is valid; else some may be invalid */
    size_t labels_without_file; /* labels whose file is none of the files */
};

/* Makes the case of a number, in these pages. */
struct fuzz_case make_case(uint64_t number, struct pages *pages);

#endif
