/* version.c: the version of the library that a program is linked with. TEXCACHE_LIBRARY_VERSION is the text of the file
 * VERSION, with +unproved behind it if the library was built without a proof. */
#include "texcache.h"

const char *texcache_version(void)
{
    return TEXCACHE_LIBRARY_VERSION;
}
