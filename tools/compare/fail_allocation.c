/* Fails one allocation of a program into which it is preloaded (LD_PRELOAD): the one whose number, from 1, FAIL_ALLOCATION gives. Ends
   the program after 60 seconds. If it makes fewer allocations, the command FAIL_MARK is run at the end. */
#include <errno.h>
#include <stdlib.h>
#include <sys/syscall.h>
#include <unistd.h>

extern void *__libc_malloc(size_t);
extern void *__libc_calloc(size_t, size_t);
extern void *__libc_realloc(void *, size_t);

static long left = -1;
static int started = 0;

__attribute__((constructor)) static void start(void) {
    const char *n = getenv("FAIL_ALLOCATION");
    left = n ? atol(n) : -1;
    alarm(60);
    started = 1;
}

/* Threads share the count, so that just one allocation fails. */
static int fails(void) {
    if (!started || __atomic_sub_fetch(&left, 1, __ATOMIC_SEQ_CST) != 0) return 0;
    errno = ENOMEM;
    return 1;
}

void *malloc(size_t size) { return fails() ? NULL : __libc_malloc(size); }
void *calloc(size_t count, size_t size) { return fails() ? NULL : __libc_calloc(count, size); }
void *realloc(void *old, size_t size) { return fails() ? NULL : __libc_realloc(old, size); }

__attribute__((destructor)) static void end(void) {
    const char *mark = getenv("FAIL_MARK");
    if (left > 0 && mark) {
        started = 0;
        unsetenv("LD_PRELOAD"); /* no allocation of the shell that runs the command fails */
        int s = system(mark);
        (void)s;
    }
}

/* A program with threads ends by this, which runs no destructor. */
void _exit(int status) {
    end();
    for (;;) syscall(SYS_exit_group, status);
}
