/* What needs the windows on the stack: longjmp out of deep calls, nested functions, a return address further out. */
#include <setjmp.h>
#include <stdio.h>

static jmp_buf place;

static int deep(int level)
{
    if (level == 0)
        longjmp(place, 7);
    return deep(level - 1) + 1;
}

static __attribute__((noinline)) int called(int (*function)(int), int number)
{
    return function(number) + 1;
}

static __attribute__((noinline)) int nested(int number)
{
    __label__ out;
    int sum = 0;
    int add(int more)
    {
        sum += more;
        if (more > 100)
            goto out;
        return sum;
    }
    called(add, number);
    called(add, 1000);
    return -1;
out:
    return sum;
}

static __attribute__((noinline)) int has_caller(void)
{
    return __builtin_return_address(1) != NULL;
}

int main(void)
{
    int result = setjmp(place);
    if (result == 0)
        deep(30);
    printf("longjmp %d\n", result);
    printf("nested %d\n", nested(5));
    printf("caller %d\n", has_caller());
    return 0;
}
