/* The standard input of a program: the partition's input words, of which the first is the number of bytes. */
#include <xm.h>
#include "program.h"

static xm_word word;
static unsigned unread; /* bytes of the word */
static xm_word left;    /* bytes of the input */
static int begun;

static int next_byte(char *to)
{
    if (left > 0 && unread == 0) {
        if (XM_read_input(&word) != 0)
            left = 0;
        unread = 4;
    }
    if (left == 0)
        return 0;
    left--;
    unread--;
    *to = (char)(word >> 8 * unread);
    return 1;
}

int program_input(char *to, size_t size)
{
    size_t done = 0;
    if (!begun) {
        begun = 1;
        if (XM_read_input(&left) != 0)
            left = 0;
    }
    while (done < size && next_byte(to + done))
        done++;
    return (int)done;
}
