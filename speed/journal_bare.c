/* How many changes of 100 and of 4,000 bytes a program commits in a second that makes a journal's four calls and
   nothing else: it writes a record behind a gate, syncs (fdatasync), writes the gate, and syncs. So what the disk
   costs is told apart from what the store's own code costs: run it in turn with the store, on the same disk.
   cc -O2 -o journal_bare journal_bare.c; ./journal_bare TURNS FOLDER */
#include <fcntl.h>
#include <stdio.h>
#include <stdlib.h>
#include <string.h>
#include <time.h>
#include <unistd.h>

enum { SLOT = 1048576, FIRST = 15, LONGEST = 65536 };

static double now(void) {
    struct timespec t;
    clock_gettime(CLOCK_MONOTONIC, &t);
    return t.tv_sec + t.tv_nsec / 1e9;
}

static void must(int done) {
    if (!done) {
        perror("journal_bare");
        exit(1);
    }
}

static void measure(const char *folder, int turns, int length) {
    char name[4096], gate = 0x5a;
    char *record = malloc(4 + LONGEST + 1);
    off_t at = FIRST;
    memset(record, 0x5a, 4 + length);
    record[4 + length] = 0;
    snprintf(name, sizeof name, "%s/bare%d", folder, length);
    int file = open(name, O_RDWR | O_CREAT | O_TRUNC, 0600);
    must(file >= 0);
    double start = now();
    for (int i = 0; i < turns; i++) {
        if (at + 5 + length > SLOT)
            at = FIRST;
        must(pwrite(file, record, 4 + length + 1, at + 1) == 4 + length + 1);
        must(fdatasync(file) == 0);
        must(pwrite(file, &gate, 1, at) == 1);
        must(fdatasync(file) == 0);
        at += 5 + length;
    }
    double took = now() - start;
    close(file);
    remove(name);
    fprintf(stderr, "%d changes of %d bytes: %.0f a second\n", turns, length, turns / took);
    free(record);
}

int main(int count, char **words) {
    int turns = count > 1 ? atoi(words[1]) : 1000;
    const char *folder = count > 2 ? words[2] : ".";
    measure(folder, turns, 100);
    measure(folder, turns, 4000);
    return 0;
}
