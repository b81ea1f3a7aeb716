/* The numbers in words, and the version. */
#include "orderset.h"

const char *orderset_strerror(uint32_t number) {
    switch (number) {
    case ORDERSET_OK: return "done";
#define REFUSAL(number, name, words, what_to_do)                                                                       \
    case ORDERSET_##name:                                                                                              \
        return words;
#include "refusals.def"
#undef REFUSAL
    default: return "a number that is not defined";
    }
}

const char *orderset_version(void) {
    return ORDERSET_VERSION_STRING;
}
