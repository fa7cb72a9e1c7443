/*
 * What newlib asks of the machine, under Linux on SPARC, for qemu-sparc: the same objects of a program as for a partition, on
 * another emulator. System calls 1 (exit), 3 (read) and 4 (write).
 */
#include <errno.h>
#include <signal.h>
#include <stdlib.h>
#include <string.h>
#include <sys/time.h>
#include <sys/times.h>
#include <sys/wait.h>
#include <unistd.h>
#include "../program.h"

#define HEAP (64 << 20)

int linux_call(int number, int a, int b, int c);
int main(int count, char **arguments, char **environment);
void start_program(void);

extern void (*const __init_array_start[])(void), (*const __init_array_end[])(void);

void *__dso_handle;
static char *no_environment[1];
char **environ = no_environment;
static char heap[HEAP];
static char *heap_at = heap;

void _exit(int status)
{
    for (;;)
        linux_call(1, status, 0, 0);
}

void start_program(void)
{
    int count = 0;
    for (void (*const *function)(void) = __init_array_start; function != __init_array_end; function++)
        (*function)();
    while (program_arguments[count] != NULL)
        count++;
    exit(main(count, program_arguments, environ));
}

void *sbrk(ptrdiff_t size)
{
    char *before = heap_at;
    if (size > heap + HEAP - heap_at || size < heap - heap_at) {
        errno = ENOMEM;
        return (void *)-1;
    }
    heap_at += size;
    return before;
}

int program_output(int stream, const char *from, size_t size)
{
    return linux_call(4, stream, (int)from, (int)size);
}

int program_input(char *to, size_t size)
{
    return linux_call(3, 0, (int)to, (int)size);
}

/* As if no time passed: what is printed is to be the same each time. */
int gettimeofday(struct timeval *restrict time, void *restrict zone)
{
    (void)zone;
    memset(time, 0, sizeof *time);
    return 0;
}

clock_t times(struct tms *used)
{
    memset(used, 0, sizeof *used);
    return 0;
}

int getpid(void)
{
    return 1;
}

int kill(int process, int signal)
{
    (void)process;
    _exit(128 + signal);
    return -1;
}

int fork(void)
{
    errno = EAGAIN;
    return -1;
}

int execve(const char *path, char *const arguments[], char *const environment[])
{
    (void)path, (void)arguments, (void)environment;
    errno = ENOMEM;
    return -1;
}

int wait(int *status)
{
    (void)status;
    errno = ECHILD;
    return -1;
}
