/* A reference that is released a second time, by a copy, and a filling that is published so: a mistake, at which a library that cargo built for
 * debugging ends the process.
 *
 * second_release ref, or second_release filling. */
#include "../pardz.h"
#include "check.h"

#include <string.h>

int main(int argc, char **argv) {
    const pardz_limits limits = PARDZ_LIMITS;
    pardz_pool pool = PARDZ_EMPTY;
    pardz_filling filling;
    pardz_ref ref;
    uint64_t key = 0;
    CHECK(argc == 2 && pardz_grow(&limits, &pool) == PARDZ_OK);
    CHECK(pardz_any_create(&pool, &filling) == PARDZ_OK);
    pardz_filling other = filling;
    CHECK(pardz_any_downgrade(&pool, &filling, &ref) == PARDZ_OK);
    if (strcmp(argv[1], "ref") == 0) {
        pardz_ref copy = ref;
        CHECK(pardz_any_release(&pool, &ref) == PARDZ_OK);
        pardz_any_release(&pool, &copy);
    } else
        pardz_any_publish(&pool, &other, &key);
    printf("nothing found it\n");
    return 0;
}
