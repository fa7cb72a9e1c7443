/* The main of an application that has PartitionMain instead. */
#include <xmcompat.h>

int main(void)
{
    PartitionMain();
    return 0;
}
