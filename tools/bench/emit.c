/* emit BYTES TIMES: renders a diagnostic with one label by `codespan_emit`, so many times. The
 * label is in the middle of a file of so many bytes, in lines of 38. The last output is written to
 * standard output. */
#include <codespan.h>
#include <stdio.h>
#include <stdlib.h>
#include <string.h>

#define LINE 38

int main(int count, char **arguments) {
    if (count != 3) {
        fprintf(stderr, "usage: emit BYTES TIMES\n");
        return 2;
    }
    size_t length = strtoull(arguments[1], NULL, 10) / LINE * LINE;
    char *source = malloc(length);
    if (source == NULL) {
        return 1;
    }
    memset(source, 'x', length);
    for (size_t at = LINE - 1; at < length; at += LINE) {
        source[at] = '\n';
    }
    codespan_text text = {(const uint8_t *)source, length};
    codespan_file file = codespan_new_file(codespan_text_from("f"), text);
    size_t start = length / LINE / 2 * LINE;
    codespan_label label = codespan_new_label(CODESPAN_PRIMARY, 0, start + 4, start + 9,
                                              codespan_text_from("here"));
    codespan_diagnostic diagnostic =
        codespan_new_diagnostic(CODESPAN_ERROR, codespan_text_from(""));
    diagnostic.labels = &label;
    diagnostic.labels_length = 1;
    codespan_config config = codespan_default_config();
    uint8_t out[4096];
    size_t written = 0;
    codespan_detail detail;
    for (unsigned long times = strtoul(arguments[2], NULL, 10); times > 0; times--) {
        uint32_t status =
            codespan_emit(&file, 1, &diagnostic, &config, out, sizeof out, &written, &detail);
        if (status != CODESPAN_OK) {
            return 1;
        }
    }
    fwrite(out, 1, written, stdout);
    free(source);
    return 0;
}
