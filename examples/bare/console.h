/* The console of a guest, by the name of its hypercall: 32, with at most 1024 bytes. */
#ifndef CONSOLE_H
#define CONSOLE_H

/* Writes the bytes, and gives how many, or a negative number where they were refused. */
int XM_write_console(const char *text, unsigned size);

#endif
