/* bzip2: a text packed and unpacked. */
#include <stdio.h>
#include <string.h>
#include "bzlib.h"
#include "text.h"

static unsigned char text[3000], packed[5000], unpacked[3000];

void bz_internal_error(int error)
{
    printf("internal error %d\n", error);
}

int main(void)
{
    unsigned size = sizeof packed, length = sizeof unpacked, sum = 0;
    fill_with_text(text, sizeof text);
    int first = BZ2_bzBuffToBuffCompress((char *)packed, &size, (char *)text, sizeof text, 1, 0, 0);
    int second = BZ2_bzBuffToBuffDecompress((char *)unpacked, &length, (char *)packed, size, 0, 0);
    for (unsigned i = 0; i < size; i++)
        sum = sum * 31 + packed[i];
    printf("%d %d, %u bytes, sum %08x, same %d\n", first, second, size, sum,
        length == sizeof text && memcmp(text, unpacked, length) == 0);
    return 0;
}
