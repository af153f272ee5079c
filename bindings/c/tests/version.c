/* The library that cargo builds is of the header's version. */
#include "../pardz.h"
#include "check.h"

#include <string.h>

int main(void) {
    CHECK(strcmp(pardz_version(), PARDZ_VERSION) == 0);
    printf("version: %s\n", pardz_version());
    return 0;
}
