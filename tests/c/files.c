#include "files.h"

#include <string.h>

#include "checks.h"
#include "lines.h"
#include "pithread.h"

#define MOST_PATH 4096

const char *const example_names[] = {
    "ackermann.txt", "countdown.txt", "crew.txt",           "critical.txt", "doubler.txt", "itself.txt",
    "jobs.txt",      "largest.txt",   "late_sender.txt",    "listing.txt",  "lock.txt",    "philosophers.txt",
    "pool.txt",      "relay.txt",     "ring_and_chain.txt", "sieve.txt",    "units.txt",   "workers.txt",
    NULL};

whole_file example(const char *folder, const char *name) {
    char path[MOST_PATH];
    snprintf(path, sizeof path, "%s/%s", folder, name);
    whole_file file = read_file(path, PITHREAD_MOST_FILE_BYTES);
    check(file.bytes != NULL, path);
    if (file.bytes == NULL) {
        exit(1);
    }
    return file;
}

/* Adds a line with these first four fields and this ninth one; the others are 0. */
static void add_line(whole_file *to, int kind, int second, int third, int fourth, int ninth) {
    const line fields = {kind, second, third, fourth, 0, 0, 0, 0, ninth};
    print_line(to->bytes + to->length, fields);
    to->length += PITHREAD_LINE_BYTES;
}

/* The branches of one definition of twelve nodes: each leads to the node behind its own. */
static void add_branches(whole_file *to) {
    for (int node = 0; node < 11; node++) {
        for (int branch = 0; branch < (node == 0 ? 4 : 2); branch++) {
            add_line(to, 6, 0, 0, 0, node + 1);
        }
    }
}

static void add_nodes(whole_file *to) {
    for (int node = 0; node < 12; node++) {
        add_line(to, 5, node < 11, node == 0 ? 4 : node < 11 ? 2 : 0, 0, 0);
    }
}

static void add_declarations(whole_file *to) {
    memcpy(to->bytes, "     1    16    16   256   192   384     8     0     0     0     0     0\n",
           PITHREAD_LINE_BYTES);
    to->length = PITHREAD_LINE_BYTES;
    for (int type = 0; type < 16; type++) {
        add_line(to, 2, 0, 0, 0, 0);
    }
    for (int definition = 0; definition < 16; definition++) {
        add_line(to, 3, definition == 0 ? 8 : 0, 16, 12, 0);
    }
    for (int slot = 0; slot < 256; slot++) {
        add_line(to, 4, 1, 0, 0, 0);
    }
}

whole_file largest_file(void) {
    whole_file file = {filled(PITHREAD_MOST_FILE_BYTES, 0), 0};
    add_declarations(&file);
    for (int definition = 0; definition < 16; definition++) {
        add_nodes(&file);
    }
    for (int definition = 0; definition < 16; definition++) {
        add_branches(&file);
    }
    return file;
}

whole_file ladder_file(void) {
    whole_file file = {filled(PITHREAD_MOST_FILE_BYTES, 0), PITHREAD_LINE_BYTES};
    memcpy(file.bytes, "     1     0     1     0   192   382     0     0     0     0     0     0\n",
           PITHREAD_LINE_BYTES);
    add_line(&file, 3, 0, 0, 192, 0);
    for (int node = 0; node < 192; node++) {
        add_line(&file, 5, node < 191, node < 191 ? 2 : 0, 0, 0);
    }
    for (int branch = 0; branch < 382; branch++) {
        add_line(&file, 6, 0, 0, 0, branch / 2 + 1);
    }
    return file;
}
