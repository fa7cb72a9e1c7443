/* A text that can be compressed: words of a sentence, and a seventh of noise. */
#include <stddef.h>

static inline void fill_with_text(unsigned char *to, size_t size)
{
    unsigned noise = 1;
    for (size_t i = 0; i < size; i++) {
        noise = noise * 1103515245u + 12345u;
        to[i] = i / 100 % 7 ? (unsigned char)"the quick brown fox jumps"[i % 25] : (unsigned char)(noise >> 20);
    }
}
