/* The lines of abi.def are those of the header, in C11 and in C++11; the names of codes, and their texts. */
#include "../pardz.h"
#include "check.h"

#include <string.h>

#ifdef __cplusplus
#define ASSERT static_assert
#define ALIGNMENT alignof
#else
#define ASSERT _Static_assert
#define ALIGNMENT _Alignof
#endif

#define TYPE(type, size, alignment) ASSERT(sizeof(type) == size && ALIGNMENT(type) == alignment, #type);
#define FIELD(type, field, offset, size) ASSERT(offsetof(type, field) == offset && sizeof(((type *)0)->field) == size, #type "." #field);
#define CODE(name, number) ASSERT(PARDZ_##name == number, #name);
#include "abi.def"
#undef TYPE
#undef FIELD
#undef CODE

/* The fields of a type: as many as there are lines of it, so that none was added in its last bytes. */
ASSERT(sizeof(pardz_shape) == 5 * sizeof(uint32_t) && sizeof(pardz_census) == 6 * sizeof(uint32_t) &&
           sizeof(pardz_stats) == sizeof(pardz_shape) + 5 * sizeof(uint32_t) + sizeof(pardz_census),
       "no field is left out");

#define TYPE(type, size, alignment)
#define FIELD(type, field, offset, size)
#define CODE(name, number) { number, "PARDZ_" #name },
static const struct {
    uint32_t number;
    const char *name;
} CODES[] = {
#include "abi.def"
};

int main(void) {
    const uint32_t count = sizeof CODES / sizeof *CODES;
    for (uint32_t i = 0; i < count; i++) {
        CHECK(CODES[i].number == i && strcmp(pardz_code_name(i), CODES[i].name) == 0);
        for (uint32_t other = 0; other <= count; other++)
            CHECK((strcmp(pardz_strerror(i), pardz_strerror(other)) == 0) == (i == other));
    }
    CHECK(strcmp(pardz_strerror(PARDZ_SHARED), "another slot has the pool, or another pool was opened under the same number") == 0);
    CHECK(strcmp(pardz_code_name(count), "PARDZ_?") == 0 && strcmp(pardz_code_name(UINT32_MAX), "PARDZ_?") == 0);
    CHECK(strcmp(pardz_strerror(count), pardz_strerror(UINT32_MAX)) == 0);
    printf("abi: %u codes with their names\n", (unsigned)count);
    return 0;
}
