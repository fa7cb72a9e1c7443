/*
 * Filters the readings of its input: one that is far from the median of the last five that were kept is an outlier. Each
 * reading has a line, and the last line has the counts.
 */
#include <xm.h>
#include "lines.h"

#define KEPT 5
#define MOST_AWAY 10

static int kept[KEPT];
static unsigned count;

/* The median of the last five, in a copy that is sorted. */
static int median(void)
{
    int sorted[KEPT];
    for (unsigned i = 0; i < KEPT; i++) {
        unsigned place = i;
        for (; place > 0 && kept[i] < sorted[place - 1]; place--)
            sorted[place] = sorted[place - 1];
        sorted[place] = kept[i];
    }
    return sorted[KEPT / 2];
}

static int is_outlier(int reading)
{
    int away = reading - median();
    return away < -MOST_AWAY || away > MOST_AWAY;
}

/* The first reading is taken for all five. */
static void keep(int reading)
{
    for (unsigned i = 0; count == 0 && i < KEPT; i++)
        kept[i] = reading;
    kept[count++ % KEPT] = reading;
}

static void print_reading(const char *what, int reading)
{
    put_text(what);
    put_signed(reading);
    if (count > 0) {
        put_text(" median ");
        put_signed(median());
    }
    print_line();
}

int main(void)
{
    unsigned outliers = 0;
    xm_word word;
    while (XM_read_input(&word) == 0) {
        int reading = (int)word;
        if (count > 0 && is_outlier(reading)) {
            outliers++;
            print_reading("outlier ", reading);
        } else {
            keep(reading);
            print_reading("reading ", reading);
        }
    }
    put_text("kept ");
    put_unsigned(count);
    put_text(" outliers ");
    put_unsigned(outliers);
    print_line();
    return 0;
}
