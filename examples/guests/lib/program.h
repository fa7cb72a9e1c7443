/*
 * What a program with the C library may have of its own; the library has each of these where the program has none.
 */
#ifndef PROGRAM_H
#define PROGRAM_H

#include <stddef.h>

/* The arguments of main, up to a null pointer. The library's: one, "program". */
extern char *program_arguments[];

/*
 * Files in memory, which the program opens by their names and may write, remove and make: PROGRAM_FILES of them, and those
 * without a name are free. `bytes` with no room is not written to: a file that grows gets memory from malloc. The library's:
 * none.
 */
#define PROGRAM_FILES 16

struct program_file {
    const char *name;
    const unsigned char *bytes;
    size_t length;
    size_t room; /* of memory from malloc, else 0 */
};

extern struct program_file program_files[PROGRAM_FILES];

/*
 * Writes to a stream, 1 or 2, and gives how many bytes, or -1 with errno set. The library's writes to the console, in pieces of
 * at most 1024 bytes.
 */
int program_output(int stream, const char *from, size_t size);

/*
 * Reads of the standard input, and gives how many bytes, 0 at its end, or -1 with errno set. The library's reads the
 * partition's input words: the first one is the number of bytes, and the bytes follow, four a word. `words` makes such a file.
 */
int program_input(char *to, size_t size);

#endif
