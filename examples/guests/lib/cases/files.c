/* Files in memory: what opening them asks for is kept, and one that is removed makes room for another. */
#include <errno.h>
#include <fcntl.h>
#include <stdio.h>
#include <string.h>
#include <unistd.h>

#define MADE 100

static void print_refusal(const char *what, int result)
{
    printf("%s: %d %s\n", what, result, result < 0 ? strerror(errno) : "done");
}

static int is_made_and_removed(int number)
{
    char name[20];
    snprintf(name, sizeof name, "file %d", number);
    int file = open(name, O_CREAT | O_WRONLY, 0644);
    return file >= 0 && write(file, name, sizeof name) == sizeof name && close(file) == 0 && unlink(name) == 0;
}

int main(void)
{
    char text[8] = "";
    int number = 0, length, file = open("a", O_CREAT | O_EXCL | O_WRONLY, 0644);
    printf("written %d\n", (int)write(file, "first", 5));
    print_refusal("read", (int)read(file, text, sizeof text));
    print_refusal("remove", unlink("a"));
    close(file);
    print_refusal("make", open("a", O_CREAT | O_EXCL | O_WRONLY, 0644));
    file = open("a", O_RDWR | O_APPEND);
    printf("appended %d\n", (int)write(file, "+", 1));
    close(file);
    file = open("a", O_RDONLY);
    print_refusal("write", (int)write(file, "x", 1));
    length = (int)read(file, text, sizeof text - 1);
    printf("read %d %s\n", length, text);
    print_refusal("open", open("b", O_RDONLY));
    while (number < MADE && is_made_and_removed(number))
        number++;
    printf("made %d\n", number);
    return 0;
}
