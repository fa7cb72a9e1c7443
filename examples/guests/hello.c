/* The least guest: one line, and the start-up code halts. */
#include <xm.h>

static const char text[] = "hello from a partition\n";

int main(void)
{
    XM_write_console(text, sizeof text - 1);
    return 0;
}
