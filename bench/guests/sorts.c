/*
 * Three sorts of the same words, without end: by a heap, by Shell's steps, and by splitting (quicksort). What they execute is
 * loads, compares, branches that depend on the words, and stores.
 */
#include "rounds.h"
#include "../../examples/bare/quicksort.h"

#define COUNT 2048

#define APART static __attribute__((noinline))

static unsigned drawn[COUNT], words[COUNT];

/* Lets a word sink in the heap of the first `count`, to where both below it are less. */
APART void sink(unsigned at, unsigned count)
{
    unsigned word = words[at];
    for (;;) {
        unsigned below = 2 * at + 1;
        if (below >= count)
            break;
        if (below + 1 < count && words[below + 1] > words[below])
            below++;
        if (words[below] <= word)
            break;
        words[at] = words[below];
        at = below;
    }
    words[at] = word;
}

APART void heap_sort(void)
{
    for (unsigned at = COUNT / 2; at-- != 0;)
        sink(at, COUNT);
    for (unsigned count = COUNT - 1; count != 0; count--) {
        unsigned greatest = words[0];
        words[0] = words[count];
        words[count] = greatest;
        sink(0, count);
    }
}

APART void shell_sort(void)
{
    for (unsigned gap = COUNT / 2; gap != 0; gap /= 2)
        for (unsigned i = gap; i < COUNT; i++) {
            unsigned word = words[i], at = i;
            for (; at >= gap && words[at - gap] > word; at -= gap)
                words[at] = words[at - gap];
            words[at] = word;
        }
}

/* The words as they were drawn. */
APART void begin_again(void)
{
    for (unsigned i = 0; i < COUNT; i++)
        words[i] = drawn[i];
}

static unsigned work(void)
{
    unsigned sum = 0;
    for (unsigned i = 0; i < COUNT; i++)
        drawn[i] = next_word();
    begin_again();
    heap_sort();
    sum += words[COUNT / 3];
    begin_again();
    shell_sort();
    sum ^= words[COUNT / 2];
    begin_again();
    quicksort(words, COUNT);
    return sum + words[COUNT / 4];
}
