/* The start of a program in C, and its end. */
#ifndef START_H
#define START_H

/* What start.S calls: bare.c has it, and with the C library lib/system.c. */
void start_program(void);

/* Of start.c. */
void run_constructors(void);
void run_destructors(void);
__attribute__((noreturn)) void _exit(int status);

#endif
