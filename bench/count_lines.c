/* Reads standard input, splits it into lines and the lines into words, and prints the numbers of lines and of words.
   replay.py and recordings.py compare `sizing` with this program, which does the least that a program could do with the
   same bytes. */

#include <errno.h>
#include <stdio.h>
#include <stdlib.h>
#include <unistd.h>

enum { MOST_BYTES = 67108864 };

static size_t read_all(char *bytes, size_t room)
{
    size_t length = 0;
    while (length < room) {
        ssize_t got = read(STDIN_FILENO, bytes + length, room - length);
        if (got == 0)
            break;
        if (got > 0)
            length += (size_t)got;
        else if (errno != EINTR)
            exit(3);
    }
    return length;
}

int main(void)
{
    char *bytes = malloc(MOST_BYTES);
    if (bytes == NULL)
        return 3;
    size_t length = read_all(bytes, MOST_BYTES);
    size_t lines = 0, words = 0;
    int in_word = 0;
    for (size_t i = 0; i < length; i++) {
        int in_gap = bytes[i] == ' ' || bytes[i] == '\n';
        words += !in_gap && !in_word;
        in_word = !in_gap;
        lines += bytes[i] == '\n';
    }
    printf("lines %zu, words %zu\n", lines, words);
    return 0;
}
