/*
 * A line of text, put together in a buffer and printed by one call of the console.
 * Whoever includes this has XM_write_console.
 */
#ifndef LINES_H
#define LINES_H

#define UNUSED __attribute__((unused))

struct line {
    char text[80];
    unsigned size;
};

static struct line line;

static UNUSED void put_char(char c)
{
    if (line.size < sizeof line.text)
        line.text[line.size++] = c;
}

static UNUSED void put_text(const char *text)
{
    while (*text)
        put_char(*text++);
}

static UNUSED void put_unsigned(unsigned number)
{
    if (number >= 10)
        put_unsigned(number / 10);
    put_char((char)('0' + number % 10));
}

static UNUSED void put_signed(int number)
{
    if (number < 0) {
        put_char('-');
        put_unsigned(0u - (unsigned)number);
    } else {
        put_unsigned((unsigned)number);
    }
}

static UNUSED void put_hex(unsigned number)
{
    for (int shift = 28; shift >= 0; shift -= 4)
        put_char("0123456789abcdef"[number >> shift & 15]);
}

static UNUSED void print_line(void)
{
    put_char('\n');
    XM_write_console(line.text, line.size);
    line.size = 0;
}

#endif
