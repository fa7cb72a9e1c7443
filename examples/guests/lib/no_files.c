/* The files of a program that has none of its own: none. */
#include "program.h"

struct program_file program_files[PROGRAM_FILES];
