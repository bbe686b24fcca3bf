/*
 * Preloaded into a program, counts its calls on its journals, and lets one of them fail or ends the program
 * there, as a crash would.
 *
 *     cc -shared -fPIC -O1 -o crash.so tests/crash.c -ldl
 *     CRASH_TRACE=FILE CRASH_AT=7 CRASH_HOW=before LD_PRELOAD=./crash.so PROGRAM ..
 *
 * Counted are the calls of pwrite, ftruncate, fsync and fdatasync on a file whose name ends with `.journal`.
 *
 * CRASH_TRACE  a file that gets eight bytes for each such call, as struct call below
 * CRASH_AT     the number, from 1, of the call that does not go well; 0 or none: each does
 * CRASH_HOW    fail       it does nothing, and answers EIO
 *              fail-done  it takes place, but for a sync, and answers EIO
 *              short      it writes one byte, and says so; another call takes place
 *              before     the program is killed in its place
 *              after      the program is killed when it has taken place
 * CRASH_IDLE   with any value, a sync answers that it is done, and nothing counts as synced: so it is with a
 *              program that never syncs
 * CRASH_SEED   at a kill, what stands under the changes since the last sync of a file may be anything; a
 *              number other than 0 says how it is made: old bytes back, a part of them, other bytes, the
 *              old length. 0 or none: everything stays as it was written
 */
#define _GNU_SOURCE
#include <dlfcn.h>
#include <errno.h>
#include <fcntl.h>
#include <signal.h>
#include <stdint.h>
#include <stdio.h>
#include <stdlib.h>
#include <string.h>
#include <sys/stat.h>
#include <unistd.h>

struct call {
    uint8_t file; /* the first letter of the file's name */
    uint8_t kind; /* w: write, s: sync, t: cut */
    uint16_t none;
    uint32_t length; /* of a write */
};

/* A change of a file since its last sync: what stood there, and how long the file was. */
struct change {
    struct change *earlier;
    int descriptor;
    off_t at, old_size;
    size_t length, kept; /* of the change, and of what stood there */
    unsigned char old[];
};

static struct change *changes;
static uint64_t count, wrong_at, seed;
static char how[16];
static int trace = -1, is_idle;

static ssize_t (*real_pwrite)(int, const void *, size_t, off_t);
static int (*real_ftruncate)(int, off_t);
static int (*real_fsync)(int), (*real_fdatasync)(int);

__attribute__((constructor)) static void begin(void) {
    const char *at = getenv("CRASH_AT"), *way = getenv("CRASH_HOW"), *from = getenv("CRASH_SEED");
    const char *file = getenv("CRASH_TRACE");
    real_pwrite = (ssize_t(*)(int, const void *, size_t, off_t))dlsym(RTLD_NEXT, "pwrite64");
    real_ftruncate = (int (*)(int, off_t))dlsym(RTLD_NEXT, "ftruncate64");
    real_fsync = (int (*)(int))dlsym(RTLD_NEXT, "fsync");
    real_fdatasync = (int (*)(int))dlsym(RTLD_NEXT, "fdatasync");
    if (at != NULL)
        wrong_at = strtoull(at, NULL, 10);
    if (from != NULL)
        seed = strtoull(from, NULL, 10);
    is_idle = getenv("CRASH_IDLE") != NULL;
    if (way != NULL)
        snprintf(how, sizeof how, "%s", way);
    if (file != NULL)
        trace = open(file, O_WRONLY | O_CREAT | O_TRUNC | O_CLOEXEC, 0600);
}

static int is(const char *way) { return strcmp(how, way) == 0; }

/* The first letter of the name of a journal, or 0 where the descriptor is of another file. */
static char journal_of(int descriptor) {
    char link[64], name[4096];
    const char *end = ".journal", *base;
    ssize_t length;
    snprintf(link, sizeof link, "/proc/self/fd/%d", descriptor);
    length = readlink(link, name, sizeof name - 1);
    if (length < (ssize_t)strlen(end))
        return 0;
    name[length] = 0;
    if (strcmp(name + length - strlen(end), end) != 0)
        return 0;
    base = strrchr(name, '/');
    return base == NULL ? name[0] : base[1];
}

static uint64_t draw(uint64_t below) {
    seed = seed * 6364136223846793005u + 1442695040888963407u;
    return (seed >> 33) % below;
}

/* Puts something else under a change that was not synced. */
static void tear(struct change *one) {
    static const unsigned char fills[] = {0x00, 0xA5, 0xFF};
    uint64_t way = draw(5);
    unsigned char fill = fills[draw(3)];
    size_t from = one->length == 0 ? 0 : draw(one->length), place;
    if (one->length == 0) { /* a cut: the old length is back, or it is not */
        if (way < 2)
            real_pwrite(one->descriptor, one->old, one->kept, one->at);
        return;
    }
    if (way == 0)
        return;
    for (place = way == 1 ? 0 : from; place < one->length; place++) {
        unsigned char byte = way <= 2 && place < one->kept ? one->old[place] : way == 4 ? (unsigned char)draw(256) : fill;
        real_pwrite(one->descriptor, &byte, 1, one->at + (off_t)place);
    }
    if (way <= 2 && one->at + (off_t)one->length > one->old_size)
        real_ftruncate(one->descriptor, one->old_size > one->at + (off_t)from ? one->old_size : one->at + (off_t)from);
}

static void crash(void) {
    if (seed != 0)
        for (struct change *one = changes; one != NULL; one = one->earlier)
            tear(one);
    kill(getpid(), SIGKILL);
    for (;;)
        pause();
}

/* Keeps what stands from a place on, before it is written over or cut off. */
static void keep(int descriptor, off_t at, size_t length, int is_cut) {
    struct stat now;
    struct change *one;
    size_t there;
    if (fstat(descriptor, &now) != 0)
        abort();
    there = now.st_size > at ? (size_t)(now.st_size - at) : 0;
    if (!is_cut && there > length)
        there = length;
    one = malloc(sizeof *one + there);
    if (one == NULL || pread(descriptor, one->old, there, at) != (ssize_t)there)
        abort();
    *one = (struct change){changes, descriptor, at, now.st_size, is_cut ? 0 : length, there};
    changes = one;
}

/* What was changed in a file is on the disk. */
static void settle(int descriptor) {
    struct change **place = &changes;
    while (*place != NULL) {
        struct change *one = *place;
        if (one->descriptor == descriptor) {
            *place = one->earlier;
            free(one);
        } else {
            place = &one->earlier;
        }
    }
}

/* Counts a call. Whether it is the one that does not go well. */
static int is_wrong(char file, char kind, size_t length) {
    struct call one = {(uint8_t)file, (uint8_t)kind, 0, (uint32_t)length};
    if (trace >= 0 && write(trace, &one, sizeof one) != sizeof one)
        abort();
    return ++count == wrong_at;
}

static ssize_t fault(void) {
    errno = EIO;
    return -1;
}

ssize_t pwrite64(int descriptor, const void *bytes, size_t length, off_t at) {
    char file = journal_of(descriptor);
    int wrong;
    ssize_t written;
    if (file == 0)
        return real_pwrite(descriptor, bytes, length, at);
    wrong = is_wrong(file, 'w', length);
    if (wrong && is("before"))
        crash();
    if (wrong && is("fail"))
        return fault();
    if (wrong && is("short") && length > 1)
        length = 1;
    keep(descriptor, at, length, 0);
    written = real_pwrite(descriptor, bytes, length, at);
    if (wrong && is("after"))
        crash();
    return wrong && is("fail-done") ? fault() : written;
}

ssize_t pwrite(int descriptor, const void *bytes, size_t length, off_t at) {
    return pwrite64(descriptor, bytes, length, at);
}

int ftruncate64(int descriptor, off_t length) {
    char file = journal_of(descriptor);
    int wrong, cut;
    if (file == 0)
        return real_ftruncate(descriptor, length);
    wrong = is_wrong(file, 't', 0);
    if (wrong && is("before"))
        crash();
    if (wrong && is("fail"))
        return (int)fault();
    keep(descriptor, length, 0, 1);
    cut = real_ftruncate(descriptor, length);
    if (wrong && is("after"))
        crash();
    return wrong && is("fail-done") ? (int)fault() : cut;
}

int ftruncate(int descriptor, off_t length) { return ftruncate64(descriptor, length); }

static int synced(int descriptor, int (*real)(int)) {
    char file = journal_of(descriptor);
    int wrong, done;
    if (file == 0)
        return real(descriptor);
    wrong = is_wrong(file, 's', 0);
    if (wrong && is("before"))
        crash();
    if (wrong && (is("fail") || is("fail-done")))
        return (int)fault();
    done = is_idle ? 0 : real(descriptor);
    if (done == 0 && !is_idle)
        settle(descriptor);
    if (wrong && is("after"))
        crash();
    return done;
}

int fsync(int descriptor) { return synced(descriptor, real_fsync); }

int fdatasync(int descriptor) { return synced(descriptor, real_fdatasync); }
