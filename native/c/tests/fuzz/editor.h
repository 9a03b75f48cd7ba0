/* Random calls for editors, compared with a second reading of what they return. */
#ifndef EDITOR_H
#define EDITOR_H

#include "cases.h"

/* Makes calls over the files of a case: positions and back in each encoding, and edits of a source.
 * `out` has room for `capacity` bytes. Returns what does not hold, or NULL. */
const char *editor_fault(const struct fuzz_case *made, uint64_t number, struct pages *pages,
                         uint8_t *out, size_t capacity);

#endif
