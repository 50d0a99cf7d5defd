/* The inline functions of blink.h under their own names, for languages that cannot read a header, and the version of the library.
 * build.d/library puts it into libblink.a and libblink.so. */
#define BLINK_INLINE
#include "blink.h"

const char *blink_version(void) {
    return BLINK_VERSION;
}
