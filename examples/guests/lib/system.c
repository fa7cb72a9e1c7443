/* What newlib asks of the machine, but for files: the program's start, memory and clocks. */
#include <xm.h>
#include <errno.h>
#include <signal.h>
#include <stdlib.h>
#include <string.h>
#include <sys/time.h>
#include <sys/times.h>
#include <sys/wait.h>
#include <unistd.h>
#include "program.h"
#include "../start.h"

/* By guarded.ld. */
extern char heap_from[], heap_to[];

int main(int count, char **arguments, char **environment);

/* C++ asks for it. */
void *__dso_handle;

static char *no_environment[1];
char **environ = no_environment;

static char *heap_at = heap_from;

/* What start.S calls. Traps are enabled, for `ta 3`; interrupts stay masked until the program unmasks them. */
void start_program(void)
{
    int count = 0;
    sparc_set_tbr((xm_word)trap_entries);
    sparc_set_psr(XM_TRAPS_ENABLED);
    atexit(run_destructors);
    run_constructors();
    while (program_arguments[count] != NULL)
        count++;
    exit(main(count, program_arguments, environ));
}

void *sbrk(ptrdiff_t size)
{
    char *before = heap_at;
    if (size > heap_to - heap_at || size < heap_from - heap_at) {
        errno = ENOMEM;
        return (void *)-1;
    }
    heap_at += size;
    return before;
}

/* Microseconds of a clock. */
static xm_time now(unsigned clock)
{
    xm_time time = 0;
    XM_get_time(clock, &time);
    return time;
}

/* The time since the system began. */
int gettimeofday(struct timeval *restrict time, void *restrict zone)
{
    xm_time since = now(XM_HW_CLOCK);
    (void)zone;
    time->tv_sec = (time_t)(since / 1000000);
    time->tv_usec = (suseconds_t)(since % 1000000);
    return 0;
}

/* The ticks in which the partition ran. */
clock_t times(struct tms *used)
{
    memset(used, 0, sizeof *used);
    used->tms_utime = (clock_t)(now(XM_EXEC_CLOCK) * CLOCKS_PER_SEC / 1000000);
    return used->tms_utime;
}

int getpid(void)
{
    return XM_get_self() + 1;
}

/* A signal that the program doesn't handle ends it, by abort and raise. */
int kill(int process, int signal)
{
    (void)process;
    _exit(128 + signal);
    return -1;
}

/* There are no other processes. */

int fork(void)
{
    errno = EAGAIN;
    return -1;
}

int execve(const char *path, char *const arguments[], char *const environment[])
{
    (void)path, (void)arguments, (void)environment;
    errno = ENOMEM;
    return -1;
}

int wait(int *status)
{
    (void)status;
    errno = ECHILD;
    return -1;
}
