/* What bench/media.sh compares with: the same pages, written by pwrite and synced by fdatasync. */
#include <fcntl.h>
#include <stdio.h>
#include <stdlib.h>
#include <string.h>
#include <unistd.h>

int main(int argc, char **argv) {
    static char page[4096];
    char path[4096];
    if (argc < 3) return 1;
    snprintf(path, sizeof path, "%s/repository-1-0", argv[1]);
    long count = atol(argv[2]);
    int file = open(path, O_RDWR | O_CREAT, 0666);
    if (file < 0) return 6;
    if (ftruncate(file, 4096L * 4096)) return 6;
    if (fsync(file)) return 6;
    memset(page, 0x5A, sizeof page);
    for (long done = 0; done < count; done++) {
        if (pwrite(file, page, sizeof page, done % 4096 * 4096L) != sizeof page) return 6;
        if (fdatasync(file)) return 6;
    }
    printf("%ld\n", count);
    return 0;
}
