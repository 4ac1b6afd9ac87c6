// The bare protocol of a commit: the body of a group of 51 bytes and a closed gate, a sync, the open
// gate, a sync; in a file of zeros that is there before. It keeps no rows.
//     bare FOLDER COUNT
#include <fcntl.h>
#include <stdio.h>
#include <stdlib.h>
#include <string.h>
#include <unistd.h>

int main(int argc, char **argv) {
    if (argc != 3) return 2;
    char name[4096], zeros[8192] = {0}, group[51];
    long count = atol(argv[2]);
    snprintf(name, sizeof name, "%s/bare.log", argv[1]);
    int file = open(name, O_RDWR | O_CREAT | O_TRUNC, 0666);
    if (file < 0) return 1;
    for (long at = 0; at < count * 51 + 8192; at += sizeof zeros)
        if (pwrite(file, zeros, sizeof zeros, at) != sizeof zeros) return 1;
    if (fdatasync(file)) return 1;
    memset(group, 0x4e, sizeof group);
    for (long i = 0; i < count; i++) {
        long at = i * 50;
        if (pwrite(file, group, 50, at + 1) != 50 || fdatasync(file)) return 1;
        if (pwrite(file, "\x4f", 1, at) != 1 || fdatasync(file)) return 1;
    }
    return 0;
}
