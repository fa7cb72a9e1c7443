/* zlib: a text packed and unpacked at three levels. */
#include <stdio.h>
#include <string.h>
#include <zlib.h>
#include "text.h"

static unsigned char text[5000], packed[8000], unpacked[5000];

int main(void)
{
    fill_with_text(text, sizeof text);
    for (int level = 1; level <= 9; level += 4) {
        uLongf size = sizeof packed, length = sizeof unpacked;
        int first = compress2(packed, &size, text, sizeof text, level);
        int second = uncompress(unpacked, &length, packed, size);
        printf("level %d: %d %d, %lu bytes, crc %08lx adler %08lx, same %d\n", level, first, second, size, crc32(0, packed, size),
            adler32(1, packed, size), length == sizeof text && memcmp(text, unpacked, length) == 0);
    }
    return 0;
}
