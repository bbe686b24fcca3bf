/*
 * Preloaded into a program, tells at its end how many threads it had and how much memory.
 *
 *     cc -shared -fPIC -O1 -o tell_usage.so bench/tell_usage.c -ldl
 *     TELL_USAGE=FILE LD_PRELOAD=./tell_usage.so PROGRAM ..
 *
 * FILE gets two numbers: the threads, the first one among them, and the peak of resident memory in kilobytes, which is
 * that of the program alone, since it is counted anew where a program begins. A program may end by `_exit`, which
 * runs no destructor.
 */
#define _GNU_SOURCE
#include <dlfcn.h>
#include <pthread.h>
#include <stdio.h>
#include <stdlib.h>
#include <sys/syscall.h>
#include <unistd.h>

static long threads = 1;

int pthread_create(pthread_t *thread, const pthread_attr_t *attributes, void *(*start)(void *), void *given) {
    int (*create)(pthread_t *, const pthread_attr_t *, void *(*)(void *), void *) = dlsym(RTLD_NEXT, "pthread_create");
    int fault = create(thread, attributes, start, given);
    if (fault == 0)
        __atomic_add_fetch(&threads, 1, __ATOMIC_RELAXED);
    return fault;
}

__attribute__((destructor)) static void tell(void) {
    const char *file = getenv("TELL_USAGE");
    FILE *status = fopen("/proc/self/status", "r");
    FILE *out = file == NULL ? NULL : fopen(file, "w");
    char line[256];
    long peak = 0;
    while (status != NULL && fgets(line, sizeof line, status) != NULL)
        sscanf(line, "VmHWM: %ld", &peak);
    if (out != NULL) {
        fprintf(out, "%ld %ld\n", __atomic_load_n(&threads, __ATOMIC_RELAXED), peak);
        fclose(out);
    }
}

void _exit(int status) {
    tell();
    for (;;)
        syscall(SYS_exit_group, status);
}
