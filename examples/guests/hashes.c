/* The third of three partitions: hashes a line again and again (FNV-1a), a line for each step. */
#include <xm.h>
#include "lines.h"

static const char text[] = "the quick brown fox jumps over the lazy dog";

int main(void)
{
    unsigned hash = 0x811c9dc5;
    for (unsigned round = 1; round <= 20; round++) {
        for (unsigned i = 0; i < sizeof text - 1; i++)
            hash = (hash ^ (unsigned char)text[i]) * 0x01000193;
        if (round % 4 == 0) {
            put_text("hash after ");
            put_unsigned(round);
            put_char(' ');
            put_hex(hash);
            print_line();
        }
    }
    return 0;
}
