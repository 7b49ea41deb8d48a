#include "checks.h"

#include <stdio.h>
#include <stdlib.h>
#include <string.h>

static int passed = 0;
static int failed = 0;

void check(int holds, const char *what) {
    if (holds) {
        passed++;
    } else {
        failed++;
        fprintf(stderr, "failed: %s\n", what);
    }
}

int close_checks(void) {
    printf("%d\n", passed);
    return failed == 0 ? 0 : 1;
}

uint8_t *filled(size_t length, int byte) {
    uint8_t *bytes = malloc(length > 0 ? length : 1);
    if (bytes == NULL) {
        fprintf(stderr, "out of memory\n");
        exit(2);
    }
    memset(bytes, byte, length);
    return bytes;
}

uint8_t *copied(const uint8_t *bytes, size_t length) {
    uint8_t *copy = filled(length, 0);
    memcpy(copy, bytes, length);
    return copy;
}

uint8_t *resized(const uint8_t *bytes, size_t has, size_t length) {
    uint8_t *other = filled(length, 0);
    memcpy(other, bytes, length < has ? length : has);
    return other;
}

int all_are(const uint8_t *bytes, size_t length, int byte) {
    for (size_t place = 0; place < length; place++) {
        if (bytes[place] != byte) {
            return 0;
        }
    }
    return 1;
}
