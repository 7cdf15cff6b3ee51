/* Preloaded (LD_PRELOAD), it makes a disk whose syncs take so many microseconds as SYNC says: a sync waits, and does nothing else. */
#include <stdlib.h>
#include <time.h>

static void wait_for_disk(void) {
    const char *word = getenv("SYNC");
    long microseconds = word ? atol(word) : 1000;
    struct timespec time = {microseconds / 1000000, microseconds % 1000000 * 1000};
    nanosleep(&time, NULL);
}

int fdatasync(int file) {
    (void)file;
    wait_for_disk();
    return 0;
}

int fsync(int file) {
    (void)file;
    wait_for_disk();
    return 0;
}
