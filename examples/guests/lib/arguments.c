/* The arguments of a program that has none of its own. */
#include "program.h"

static char name[] = "program";
char *program_arguments[] = {name, NULL};
