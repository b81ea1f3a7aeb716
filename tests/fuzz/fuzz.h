/* fuzz.h: what the fuzz targets share: bytes as a file that the handles open by its name. */
#ifndef FUZZ_H
#define FUZZ_H

#include <stddef.h>
#include <stdint.h>

int LLVMFuzzerTestOneInput(const uint8_t *data, size_t size);

/* The name of a file in memory with these bytes; the next call ends it. */
const char *fuzz_file(const uint8_t *data, size_t size);

/* Ends the target with a message unless it holds. */
void fuzz_expect(int holds, const char *what);

#endif
