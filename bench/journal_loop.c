/* The protocol of a journal in a plain loop: for each record a frame with a closed gate behind it is written, and made sure of,
 * then its gate is opened, and made sure of. It is the yardstick of bench/run.sh, in the same folder and the same run; both are
 * timed from start to end of the program.
 *
 * usage: journal_loop PATH RECORDS fdatasync|fsync */
#include <fcntl.h>
#include <stdio.h>
#include <stdlib.h>
#include <string.h>
#include <unistd.h>

enum { magic_size = 16, head_size = 12, line_size = 137, frame_size = head_size + line_size };

static int (*sure)(int);

static void must(int good, const char *what) {
    if (!good) {
        perror(what);
        exit(1);
    }
}

static void put(int file, const void *bytes, size_t size, off_t at) {
    must(pwrite(file, bytes, size, at) == (ssize_t)size, "pwrite");
}

int main(int count, char **words) {
    if (count != 4) {
        fprintf(stderr, "usage: journal_loop PATH RECORDS fdatasync|fsync\n");
        return 2;
    }
    long records = atol(words[2]);
    sure = strcmp(words[3], "fsync") == 0 ? fsync : fdatasync;
    int file = open(words[1], O_RDWR | O_CREAT | O_TRUNC, 0600);
    must(file >= 0, "open");
    put(file, "REP-P JOURNAL 1\n", magic_size + 1, 0); /* the text's end is the closed gate */
    must(sure(file) == 0, "sync");
    unsigned char frame[frame_size + 1], is_open = 0xA5;
    memset(frame, '0', frame_size);
    frame[frame_size] = 0;
    off_t gate = magic_size;
    for (long record = 0; record < records; record++) {
        put(file, frame, sizeof frame, gate + 1);
        must(sure(file) == 0, "sync");
        put(file, &is_open, 1, gate);
        must(sure(file) == 0, "sync");
        gate += 1 + frame_size;
    }
    return 0;
}
