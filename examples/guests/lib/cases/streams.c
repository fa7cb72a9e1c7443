/* Standard input by words, files in memory, long output. */
#include <stdio.h>
#include <string.h>

int main(void)
{
    char line[100], text[1500];
    int lines = 0;
    while (fgets(line, sizeof line, stdin) != NULL)
        printf("%d %s", ++lines, line);
    printf("\n");

    FILE *file = fopen("made", "w+");
    fprintf(file, "%d lines", lines);
    rewind(file);
    printf("%s\n", fgets(line, sizeof line, file));
    fclose(file);
    printf("removed %d, there %d\n", remove("made") == 0, fopen("made", "r") != NULL);

    memset(text, 'x', sizeof text);
    printf("%d\n", (int)fwrite(text, 1, sizeof text, stderr));
    return 0;
}
