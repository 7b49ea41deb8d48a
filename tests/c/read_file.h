/* Reading a whole file into memory, for the programs of this folder. */
#ifndef READ_FILE_H
#define READ_FILE_H

#include <stdint.h>
#include <stdio.h>
#include <stdlib.h>

typedef struct {
    uint8_t *bytes; /* to be freed; null if the file could not be read */
    size_t length;
} whole_file;

/* A file of up to `most` bytes, in a buffer of exactly its length (of one byte for an empty file).
 * Of a longer file the first `most` bytes come back. */
static inline whole_file read_file(const char *path, size_t most) {
    whole_file file = {NULL, 0};
    FILE *stream = fopen(path, "rb");
    if (stream == NULL) {
        return file;
    }
    uint8_t *bytes = malloc(most);
    if (bytes != NULL) {
        file.length = fread(bytes, 1, most, stream);
        if (!ferror(stream)) {
            file.bytes = realloc(bytes, file.length > 0 ? file.length : 1);
        }
        if (file.bytes == NULL) {
            free(bytes);
        }
    }
    fclose(stream);
    return file;
}

#endif
