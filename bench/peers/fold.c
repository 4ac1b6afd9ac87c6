// The bare fold of a log: its groups are read once, from the ring's first byte to the closed gate, and their
// changes set in a search tree of the C library. It tests nothing but the gates.
//     fold LOG
#include <fcntl.h>
#include <search.h>
#include <stdint.h>
#include <stdio.h>
#include <stdlib.h>
#include <string.h>
#include <sys/stat.h>
#include <unistd.h>

struct row {
    uint16_t table, key, value;
    uint8_t bytes[];
};

static int by_place(const void *a, const void *b) {
    const struct row *x = a, *y = b;
    if (x->table != y->table) return x->table < y->table ? -1 : 1;
    int order = memcmp(x->bytes, y->bytes, x->key < y->key ? x->key : y->key);
    return order ? order : (int)x->key - (int)y->key;
}

static long rows;

static void count(const void *node, VISIT visit, int depth) {
    rows += visit == postorder || visit == leaf;
}

static uint32_t number(const uint8_t *at, int bytes) {
    uint32_t n = 0;
    while (bytes--) n = n << 8 | *at++;
    return n;
}

static void set(void **tree, const uint8_t *change, uint16_t key, uint16_t value) {
    struct row *row = malloc(sizeof *row + key + value), **found;
    row->table = number(change, 2), row->key = key, row->value = value;
    memcpy(row->bytes, change + 7, key + value);
    if (change[2] == 1) {
        found = tsearch(row, tree, by_place);
        if (*found != row) free(*found), *found = row;
    } else {
        if ((found = tfind(row, tree, by_place))) {
            struct row *old = *found;
            tdelete(row, tree, by_place);
            free(old);
        }
        free(row);
    }
}

int main(int argc, char **argv) {
    struct stat status;
    int file = argc == 2 ? open(argv[1], O_RDONLY) : -1;
    if (file < 0 || fstat(file, &status)) return 1;
    long size = status.st_size - 16384, groups = 0;
    uint8_t *log = malloc(size);
    for (long at = 0; at < size; at += 8192)
        if (pread(file, log + at, 8192, 16384 + at) != 8192) return 1;
    void *tree = 0;
    for (long at = 0; at + 33 <= size && log[at] == 0x4f; groups++) {
        const uint8_t *change = log + at + 33;
        for (uint32_t left = number(log + at + 29, 4); left; left--) {
            uint16_t key = number(change + 3, 2), value = number(change + 5, 2);
            set(&tree, change, key, value);
            change += 7 + key + value;
        }
        at += number(log + at + 1, 4);
    }
    twalk(tree, count);
    printf("%ld groups, %ld rows\n", groups, rows);
    return 0;
}
