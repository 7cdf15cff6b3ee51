// Writes and syncs what one broker and one repository write and sync for so many acts of a read and a write, and
// nothing else: syncs FOLDER ACTS. Seven pages an act, each a body, a sync, a gate byte, a sync.
#include <fcntl.h>
#include <stdio.h>
#include <stdlib.h>
#include <string.h>
#include <unistd.h>

static char name[4096];

static int opened(const char *folder, const char *file) {
    snprintf(name, sizeof name, "%s/%s", folder, file);
    return open(name, O_RDWR | O_CREAT, 0644);
}

static int put(int file, long *page, size_t size) {
    static const unsigned char gate = 0xA5;
    static unsigned char body[128];
    memset(body, 1, sizeof body);
    off_t at = *page * 4096;
    *page += 1;
    return pwrite(file, body, size, at + 1) == (ssize_t)size && !fdatasync(file) && pwrite(file, &gate, 1, at) == 1 && !fdatasync(file);
}

int main(int count, char **words) {
    if (count != 3) return 2;
    int repository = opened(words[1], "repository-1-0"), broker = opened(words[1], "broker-1-0");
    long acts = atol(words[2]), here = 0, there = 0;
    if (repository < 0 || broker < 0) return 1;
    for (long act = 0; act < acts; act++)
        if (!put(broker, &there, 83) || !put(repository, &here, 23) || !put(repository, &here, 24) || !put(broker, &there, 10) ||
            !put(repository, &here, 39) || !put(broker, &there, 9) || !put(repository, &here, 16))
            return 1;
    return 0;
}
