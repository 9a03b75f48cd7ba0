/* A diagnostic with everything in it, over two files, of which one is a window with lines. */
#ifndef SAMPLE_H
#define SAMPLE_H

#include "check.h"

/* A diagnostic with all that it can have, over two files. */
struct sample {
    codespan_config config;
    codespan_line lines[3];
    codespan_location locations[2];
    codespan_file files[2];
    codespan_label labels[3];
    codespan_text notes[2];
    codespan_diagnostic diagnostic;
};

static inline void set_files(struct sample *sample) {
    codespan_line lines[] = {{100, 104, 7}, {104, 108, 8}, {108, 113, 9}};
    codespan_location locations[] = {{100, 70, 1}, {104, 80, 1}};
    memcpy(sample->lines, lines, sizeof lines);
    memcpy(sample->locations, locations, sizeof locations);
    sample->files[0] =
        codespan_new_file(codespan_text_from("a.txt"), codespan_text_from("one\ntwo\nthree\n"));
    sample->files[1] =
        codespan_new_file(codespan_text_from("b.txt"), codespan_text_from("one\ntwo\nthr\303\251"));
    sample->files[1].first_byte = 100;
    sample->files[1].lines = sample->lines;
    sample->files[1].lines_length = 3;
    sample->files[1].locations = sample->locations;
    sample->files[1].locations_length = 2;
}

static inline void set_sample(struct sample *sample) {
    sample->config = codespan_default_config();
    set_files(sample);
    sample->labels[0] =
        codespan_new_label(CODESPAN_PRIMARY, 0, 1, 9, codespan_text_from("over lines"));
    sample->labels[1] = codespan_new_label(CODESPAN_SECONDARY, 0, 4, 5, codespan_text_from("m"));
    sample->labels[2] = codespan_new_label(CODESPAN_PRIMARY, 1, 104, 106, codespan_no_text());
    sample->notes[0] = codespan_text_from("a note");
    sample->notes[1] = codespan_text_from("another note");
    sample->diagnostic = codespan_new_diagnostic(CODESPAN_ERROR, codespan_text_from("a message"));
    sample->diagnostic.code = codespan_text_from("E1");
    sample->diagnostic.labels = sample->labels;
    sample->diagnostic.labels_length = 3;
    sample->diagnostic.notes = sample->notes;
    sample->diagnostic.notes_length = 2;
}

static inline struct call call_of(const struct sample *sample) {
    struct call call = {sample->files, 2, &sample->diagnostic, &sample->config};
    return call;
}

#endif
