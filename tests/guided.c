/*
 * Preloaded into the program by AFL++ (guided.sh), lets one input be two journals and a text.
 *
 *     cc -shared -fPIC -O1 -o guided.so tests/guided.c
 *     AFL_PRELOAD=./guided.so afl-fuzz .. -- PROGRAM run --journal FOLDER
 *
 * Standard input is a file: the lengths of both journals, each of 4 bytes, the highest first, the journals' bytes, and the text.
 * The program locks each journal when it has opened it, the clearing node's first: it is given its bytes then. What the program
 * reads of standard input begins with the text.
 */
#define _GNU_SOURCE
#include <stdint.h>
#include <sys/stat.h>
#include <sys/syscall.h>
#include <unistd.h>

static unsigned locked;
static int is_begun;

/* Where a part of the input begins: 0 the first journal, 1 the second one, 2 the text, 3 its end. */
static off_t place_of(unsigned part) {
    unsigned char lengths[8] = {0};
    struct stat about;
    off_t end, place = sizeof lengths;
    unsigned at;
    if (fstat(0, &about) != 0 || pread(0, lengths, sizeof lengths, 0) != (ssize_t)sizeof lengths)
        return 0;
    end = about.st_size;
    for (at = 0; at < part && at < 2; at++) {
        const unsigned char *length = lengths + 4 * at;
        uint32_t count = (uint32_t)length[0] << 24 | (uint32_t)length[1] << 16 | (uint32_t)length[2] << 8 | length[3];
        place = (off_t)count < end - place ? place + (off_t)count : end;
    }
    return part == 3 ? end : place;
}

int flock(int file, int operation) {
    if (locked < 2) {
        off_t place = place_of(locked), end = place_of(locked + 1), to = 0;
        char piece[4096];
        locked++;
        if (ftruncate(file, 0) != 0)
            _exit(99);
        while (place < end) {
            size_t most = end - place < (off_t)sizeof piece ? (size_t)(end - place) : sizeof piece;
            ssize_t count = pread(0, piece, most, place);
            if (count <= 0 || pwrite(file, piece, (size_t)count, to) != count)
                _exit(99);
            place += count;
            to += count;
        }
    }
    return (int)syscall(SYS_flock, file, operation);
}

ssize_t read(int file, void *room, size_t length) {
    if (file == 0 && !is_begun) {
        is_begun = 1;
        lseek(0, place_of(2), SEEK_SET);
    }
    return syscall(SYS_read, file, room, length);
}
