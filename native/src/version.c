/* The version of the library: that of the header which it is built with. */
#include <codespan.h>

const char *codespan_version(void) { return CODESPAN_VERSION; }
