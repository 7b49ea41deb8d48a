#include "lines.h"

#include <stdio.h>
#include <stdlib.h>
#include <string.h>

#include "checks.h"
#include "pithread.h"

enum { HEADER_KIND = 1, DEFINITION_KIND = 3 };

void print_line(uint8_t *to, const line fields) {
    char text[PITHREAD_LINE_BYTES + 1];
    for (size_t field = 0; field < FIELDS; field++) {
        snprintf(text + 6 * field, 7, "%6d", fields[field]);
    }
    memcpy(to, text, PITHREAD_LINE_BYTES - 1);
    to[PITHREAD_LINE_BYTES - 1] = '\n';
}

static void count_lines(line header, const line *lines, size_t count) {
    header[0] = HEADER_KIND;
    for (size_t place = 0; place < count; place++) {
        int kind = lines[place][0];
        if (kind == DEFINITION_KIND && header[2] == 0) {
            header[6] = lines[place][1];
        }
        header[kind - 1]++;
    }
}

uint8_t *table_of_file(const char *name, const uint8_t *file, size_t length) {
    uint8_t *table = filled(PITHREAD_TABLE_BYTES, PATTERN);
    pithread_loaded loaded = pithread_load(file, length, table, PITHREAD_TABLE_BYTES);
    if (loaded.refusal != PITHREAD_DONE) {
        fprintf(stderr, "%s: refusal %d, line %d\n", name, (int)loaded.refusal, (int)loaded.line);
        exit(1);
    }
    return table;
}

uint8_t *table_of(const char *name, const line *lines, size_t count) {
    line header = {0};
    size_t length = (count + 1) * PITHREAD_LINE_BYTES;
    uint8_t *file = filled(length, 0);
    count_lines(header, lines, count);
    print_line(file, header);
    for (size_t place = 0; place < count; place++) {
        print_line(file + (place + 1) * PITHREAD_LINE_BYTES, lines[place]);
    }
    uint8_t *table = table_of_file(name, file, length);
    free(file);
    return table;
}
