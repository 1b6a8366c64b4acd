/* A program of the tests: prints its words, which are put into it, and where it is. */
#include <stdio.h>
#include <unistd.h>

static volatile char words[] = "THE WORDS THAT IT PRINTS";

int main(void)
{
    char path[4096];
    ssize_t length = readlink("/proc/self/exe", path, sizeof path - 1);
    path[length < 0 ? 0 : length] = 0;
    for (int at = 0; words[at] && words[at] != '.'; at++)
        putchar(words[at]);
    printf(" %s\n", path);
    return 0;
}
