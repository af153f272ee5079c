/* Which library it is: libpardz alone has a version, and tells of pages and places. */
#ifndef WHICH_H
#define WHICH_H

#include "../pardz.h"

#pragma weak pardz_version

static int tells_places(void) {
    return pardz_version != NULL;
}

#endif
