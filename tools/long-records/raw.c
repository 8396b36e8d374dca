/* A raw file next to a volume, a sector of 4,096 bytes a call.
   raw read FILE SECTORS          reads so many sectors from sector 2 on
   raw write FILE RECORDS SECTORS for each record writes so many sectors that stand behind one another, syncs, writes one of the first two
                                  sectors, and syncs
   Each prints the seconds that this took. */
#include <fcntl.h>
#include <stdio.h>
#include <stdlib.h>
#include <string.h>
#include <time.h>
#include <unistd.h>

enum { SECTOR = 4096, FIRST = 2, REPLACED = 3 };

static void check(int done)
{
    if (!done) {
        perror("raw");
        exit(1);
    }
}

static double now(void)
{
    struct timespec time;
    check(clock_gettime(CLOCK_MONOTONIC, &time) == 0);
    return time.tv_sec + time.tv_nsec * 1e-9;
}

int main(int count, char **words)
{
    static char bytes[SECTOR];
    check(count >= 4);
    int file = open(words[2], O_RDWR), is_read = !strcmp(words[1], "read");
    long times = atol(words[3]), sectors = is_read ? 1 : atol(words[4]);
    check(file >= 0);
    double begun = now();
    for (long i = 0; i < times; i++) {
        if (is_read) {
            check(pread(file, bytes, SECTOR, SECTOR * (FIRST + i)) == SECTOR);
            continue;
        }
        bytes[0] = (char)i;
        for (long k = 0; k < sectors; k++)
            check(pwrite(file, bytes, SECTOR, SECTOR * (FIRST + i * (sectors - REPLACED) + k)) == SECTOR);
        check(fdatasync(file) == 0);
        check(pwrite(file, bytes, SECTOR, SECTOR * (i % FIRST)) == SECTOR);
        check(fdatasync(file) == 0);
    }
    printf("%f\n", now() - begun);
    return 0;
}
