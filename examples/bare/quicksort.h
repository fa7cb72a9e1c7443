// Sorts words in place, smallest first.
static __attribute__((noinline)) void quicksort(unsigned *words, int count)
{
    if (count < 2)
        return;
    unsigned pivot = words[count / 2];
    int low = 0, high = count - 1;
    while (low <= high) {
        while (words[low] < pivot)
            low++;
        while (pivot < words[high])
            high--;
        if (low <= high) {
            unsigned held = words[low];
            words[low++] = words[high];
            words[high--] = held;
        }
    }
    quicksort(words, high + 1);
    quicksort(words + low, count - low);
}
