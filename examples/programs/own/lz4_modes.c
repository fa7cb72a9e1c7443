/* lz4: a text packed and unpacked by the fast mode, the strong one and in frames, and its hashes. */
#include <stdio.h>
#include <string.h>
#include "lz4.h"
#include "lz4frame.h"
#include "lz4hc.h"
#include "text.h"
#include "xxhash.h"

static char text[6000], packed[12000], unpacked[6000];

static int is_same(int size)
{
    return size == sizeof text && memcmp(text, unpacked, sizeof text) == 0;
}

int main(void)
{
    fill_with_text((unsigned char *)text, sizeof text);
    int size = LZ4_compress_default(text, packed, sizeof text, sizeof packed);
    int length = LZ4_decompress_safe(packed, unpacked, size, sizeof unpacked);
    printf("fast: same %d, shorter %d\n", is_same(length), size < length);
    size = LZ4_compress_HC(text, packed, sizeof text, sizeof packed, 9);
    memset(unpacked, 0, sizeof unpacked);
    length = LZ4_decompress_safe(packed, unpacked, size, sizeof unpacked);
    printf("strong: %d bytes, same %d, hash %08x\n", size, is_same(length), XXH32(unpacked, (size_t)length, 7));

    LZ4F_dctx *context;
    size_t framed = LZ4F_compressFrame(packed, sizeof packed, text, sizeof text, NULL), to = sizeof unpacked, from = framed;
    LZ4F_createDecompressionContext(&context, LZ4F_VERSION);
    memset(unpacked, 0, sizeof unpacked);
    size_t left = LZ4F_decompress(context, unpacked, &to, packed, &from, NULL);
    printf("frame: left %d, same %d, hash %016llx\n", (int)left, is_same((int)to), (unsigned long long)XXH64(unpacked, to, 1));
    return 0;
}
