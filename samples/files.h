/* What the samples in C share: a file's bytes, up to one more than the longest table or recording. */
#include <stdint.h>
#include <stdio.h>
#include <stdlib.h>

static size_t read_file(const char *name, uint8_t *bytes) {
    FILE *f = fopen(name, "rb");
    if (f == NULL) {
        perror(name);
        exit(1);
    }
    size_t length = fread(bytes, 1, 65537, f);
    fclose(f);
    return length;
}
