/*
 * Runs a program many times, quickly, and tells how each run ended.
 *
 *     cc -O1 -o hostile tests/hostile.c
 *     hostile PROGRAM ROOM
 *
 * ROOM is a folder, best in memory. Orders come on standard input: seven numbers of 32 bits in the machine's own order,
 *
 *     bytes of words, bytes of text, bytes of the first journal, bytes of the second one,
 *     KiB of address space, seconds of a processor, seconds in all
 *
 * then these bytes. Each word ends with a byte 0. The text is the program's standard input. The journals are the
 * files clear.journal and depot.journal of the folder ROOM/at/j, where ROOM/at is the program's working folder; a
 * file of NONE bytes is taken away, and one of STAYS bytes is left as it is. What the program writes stands in
 * ROOM/out and ROOM/err. For each order six numbers of 64 bits go to standard output:
 *
 *     how the run ended: its exit status, 1000 and a signal's number, or 2000 where it did not end in time
 *     microseconds of a processor, highest memory in KiB, bytes of standard output, bytes of standard error,
 *     microseconds in all
 *
 * The exit status is 0 where standard input ends between two orders, else 1.
 */
#define _GNU_SOURCE
#include <errno.h>
#include <fcntl.h>
#include <signal.h>
#include <stdint.h>
#include <stdio.h>
#include <stdlib.h>
#include <string.h>
#include <sys/resource.h>
#include <sys/stat.h>
#include <sys/time.h>
#include <sys/wait.h>
#include <time.h>
#include <unistd.h>

#define NONE 0xFFFFFFFFu
#define STAYS 0xFFFFFFFEu

enum { WORDS, TEXT, CLEAR, DEPOT, SPACE, PROCESSOR, ALL, NUMBERS };

static volatile sig_atomic_t is_late;
static volatile pid_t child;

static void end_late(int signal_number) {
    (void)signal_number;
    is_late = 1;
    if (child > 0)
        kill(child, SIGKILL);
}

static void stop(const char *what) {
    perror(what);
    exit(1);
}

/* Reads so many bytes; 0 where standard input ends before the first of them. */
static int read_whole(void *place, size_t length) {
    size_t had = 0;
    while (had < length) {
        ssize_t count = read(0, (char *)place + had, length - had);
        if (count < 0 && errno == EINTR)
            continue;
        if (count < 0 || (count == 0 && had > 0))
            stop("the orders");
        if (count == 0)
            return 0;
        had += (size_t)count;
    }
    return 1;
}

static void write_whole(int file, const void *place, size_t length) {
    while (length > 0) {
        ssize_t count = write(file, place, length);
        if (count < 0 && errno == EINTR)
            continue;
        if (count <= 0)
            stop("a file");
        place = (const char *)place + count;
        length -= (size_t)count;
    }
}

/*
 * Passes so many bytes on to a file, piece by piece: what this process has held counts for the highest memory of
 * those that it starts.
 */
static void pass_on(int file, size_t length) {
    static char piece[65536];
    while (length > 0) {
        size_t count = length < sizeof piece ? length : sizeof piece;
        if (!read_whole(piece, count))
            stop("the orders");
        write_whole(file, piece, count);
        length -= count;
    }
}

/* A file of the next bytes, none, or the one that is there. */
static void put_journal(const char *path, uint32_t length) {
    int file;
    if (length == STAYS)
        return;
    if (length == NONE) {
        unlink(path);
        return;
    }
    file = open(path, O_WRONLY | O_CREAT | O_TRUNC | O_CLOEXEC, 0600);
    if (file < 0)
        stop(path);
    pass_on(file, length);
    close(file);
}

static int open_empty(const char *path) {
    int file = open(path, O_RDWR | O_CREAT | O_TRUNC | O_CLOEXEC, 0600);
    if (file < 0)
        stop(path);
    return file;
}

static uint64_t size_of(int file) {
    struct stat about;
    if (fstat(file, &about) != 0)
        stop("a file");
    return (uint64_t)about.st_size;
}

static uint64_t microseconds(struct timeval time) {
    return (uint64_t)time.tv_sec * 1000000u + (uint64_t)time.tv_usec;
}

static uint64_t now(void) {
    struct timespec time;
    clock_gettime(CLOCK_MONOTONIC, &time);
    return (uint64_t)time.tv_sec * 1000000u + (uint64_t)time.tv_nsec / 1000u;
}

static void limit(int resource, uint64_t most) {
    struct rlimit both = {most, most};
    setrlimit(resource, &both);
}

int main(int count, char **given) {
    uint32_t sizes[NUMBERS];
    static char *bytes;
    static size_t room;
    int in, out, err;
    struct sigaction late = {0};
    if (count != 3)
        return 1;
    late.sa_handler = end_late;
    sigaction(SIGALRM, &late, NULL);
    if (chdir(given[2]) != 0)
        stop(given[2]);
    mkdir("at", 0700);
    mkdir("at/j", 0700);
    in = open_empty("in");
    out = open_empty("out");
    err = open_empty("err");
    while (read_whole(sizes, sizeof sizes)) {
        size_t place, word = 1;
        struct itimerval timer = {{0, 0}, {sizes[ALL], 0}}, none = {{0, 0}, {0, 0}};
        struct rusage used;
        uint64_t told[6], began;
        static char **words;
        int status;
        pid_t started;
        if (sizes[WORDS] > room && (bytes = realloc(bytes, room = sizes[WORDS])) == NULL)
            stop("memory");
        if (sizes[WORDS] > 0 && !read_whole(bytes, sizes[WORDS]))
            stop("the orders");
        words = calloc(sizes[WORDS] + 2, sizeof *words);
        if (words == NULL)
            stop("memory");
        words[0] = given[1];
        for (place = 0; place < sizes[WORDS]; place += strlen(bytes + place) + 1)
            words[word++] = bytes + place;
        if (ftruncate(in, 0) != 0 || ftruncate(out, 0) != 0 || ftruncate(err, 0) != 0)
            stop("a file");
        lseek(in, 0, SEEK_SET);
        lseek(out, 0, SEEK_SET);
        lseek(err, 0, SEEK_SET);
        pass_on(in, sizes[TEXT]);
        lseek(in, 0, SEEK_SET);
        put_journal("at/j/clear.journal", sizes[CLEAR]);
        put_journal("at/j/depot.journal", sizes[DEPOT]);
        is_late = 0;
        child = 0;
        began = now();
        started = vfork();
        if (started == 0) {
            if (dup2(in, 0) < 0 || dup2(out, 1) < 0 || dup2(err, 2) < 0 || chdir("at") != 0)
                _exit(120);
            limit(RLIMIT_CORE, 0);
            limit(RLIMIT_AS, (uint64_t)sizes[SPACE] * 1024);
            limit(RLIMIT_CPU, sizes[PROCESSOR]);
            execv(given[1], words);
            _exit(errno == E2BIG ? 121 : 120);
        }
        if (started < 0)
            stop("a new process");
        child = started;
        setitimer(ITIMER_REAL, &timer, NULL);
        while (wait4(started, &status, 0, &used) < 0)
            if (errno != EINTR)
                stop("the end of a process");
        child = 0;
        setitimer(ITIMER_REAL, &none, NULL);
        free(words);
        told[0] = is_late ? 2000 : WIFSIGNALED(status) ? 1000 + (uint64_t)WTERMSIG(status) : (uint64_t)WEXITSTATUS(status);
        told[1] = microseconds(used.ru_utime) + microseconds(used.ru_stime);
        told[2] = (uint64_t)used.ru_maxrss;
        told[3] = size_of(out);
        told[4] = size_of(err);
        told[5] = now() - began;
        write_whole(1, told, sizeof told);
    }
    return 0;
}
