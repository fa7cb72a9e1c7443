/* Preloaded into a program: counts its allocations, and refuses some of them.
   REFUSE=N refuses the allocation N, counted from 0, and with REFUSE_ALL=1 all later ones, too. REFUSE_LOG=FILE gets the
   count at the end, and the addresses of code that stand on the stack where the first one is refused. */
#define _GNU_SOURCE
#include <dlfcn.h>
#include <fcntl.h>
#include <stdio.h>
#include <stdlib.h>
#include <sys/auxv.h>
#include <unistd.h>

extern void *__libc_stack_end;

static void *(*real_malloc)(size_t);
static void *(*real_realloc)(void *, size_t);
static long count, first = -1;
static int log_file = -1, refuses_all, is_logged;

static void put_line(const char *text, unsigned long number) {
    char line[64];
    int length = snprintf(line, sizeof line, text, number);
    if (log_file >= 0 && write(log_file, line, (size_t)length) != length)
        _exit(99);
}

__attribute__((constructor)) static void begin(void) {
    const char *number = getenv("REFUSE"), *all = getenv("REFUSE_ALL"), *name = getenv("REFUSE_LOG");
    if (real_malloc)
        return;
    real_malloc = (void *(*)(size_t))dlsym(RTLD_NEXT, "malloc");
    real_realloc = (void *(*)(void *, size_t))dlsym(RTLD_NEXT, "realloc");
    if (name)
        log_file = open(name, O_WRONLY | O_CREAT | O_TRUNC | O_CLOEXEC, 0600);
    if (number)
        first = atol(number);
    refuses_all = all != NULL;
}

__attribute__((destructor)) static void end(void) {
    put_line("count %lu\n", (unsigned long)count);
}

/* The addresses on the stack that lie in the program itself. */
static void log_stack(void) {
    void **place = __builtin_frame_address(0);
    Dl_info program, in;
    if (!dladdr((void *)getauxval(AT_PHDR), &program))
        return;
    for (; place < (void **)__libc_stack_end; place++)
        if (dladdr(*place, &in) && in.dli_fbase == program.dli_fbase)
            put_line("at %lx\n", (unsigned long)*place - (unsigned long)in.dli_fbase);
}

static int is_refused(void) {
    long number = count++;
    if (first < 0 || number < first || (number > first && !refuses_all))
        return 0;
    if (!is_logged)
        log_stack();
    is_logged = 1;
    return 1;
}

void *malloc(size_t size) {
    begin();
    return is_refused() ? NULL : real_malloc(size);
}

void *realloc(void *old, size_t size) {
    begin();
    return is_refused() ? NULL : real_realloc(old, size);
}
