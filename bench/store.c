/* What bench/store.sh compares with: the same file's pages, read by pread, and their effects of 19
   bytes, kept in a list as they are read. */
#include <fcntl.h>
#include <stdint.h>
#include <stdio.h>
#include <stdlib.h>
#include <string.h>
#include <unistd.h>

struct begin {
    uint64_t clock, deadline;
    uint8_t broker, home;
};

static uint64_t number(const unsigned char *bytes) {
    uint64_t n = 0;
    for (int i = 0; i < 8; i++) n = n << 8 | bytes[i];
    return n;
}

int main(int argc, char **argv) {
    static unsigned char page[4096];
    char path[4096];
    if (argc < 2) return 1;
    snprintf(path, sizeof path, "%s/repository-1-0", argv[1]);
    int file = open(path, O_RDONLY);
    if (file < 0) return 6;
    struct begin *list = NULL;
    size_t count = 0, room = 0;
    for (off_t at = 0; pread(file, page, sizeof page, at) == sizeof page; at += sizeof page) {
        if (page[0] != 0xA5 || page[1] != 2 || page[4] != 0) continue;
        size_t end = 5 + (page[2] << 8 | page[3]);
        for (size_t i = 5; i + 19 <= end && page[i] == 3; i += 19) {
            if (count == room) {
                room = room ? 2 * room : 16;
                list = realloc(list, room * sizeof *list);
                if (!list) return 7;
            }
            list[count].clock = number(page + i + 1);
            list[count].broker = page[i + 9];
            list[count].home = page[i + 10];
            list[count].deadline = number(page + i + 11);
            count++;
        }
    }
    printf("%zu\n", count);
    return 0;
}
