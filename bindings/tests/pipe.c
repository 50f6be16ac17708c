/* pipe CT_TOOL FILE: tells `ct_tool interact` the lines of a file over a pipe, each when the last one was answered, and prints the answers.
   The lines a second go to standard error. */
#include "timed.h"
#include <string.h>
#include <unistd.h>

int main(int argc, char **argv) {
    int to[2], from[2];
    size_t length, lines = 0;
    char *text = argc > 2 ? whole(argv[2], &length) : NULL;
    if (text == NULL || pipe(to) != 0 || pipe(from) != 0) {
        return 2;
    }
    if (fork() == 0) {
        dup2(to[0], 0);
        dup2(from[1], 1);
        close(to[1]);
        close(from[0]);
        execl(argv[1], argv[1], "interact", (char *)NULL);
        _exit(127);
    }
    close(to[0]);
    close(from[1]);
    FILE *answers = fdopen(from[0], "r");
    char *answer = NULL;
    size_t room = 0;
    double start = now();
    for (char *line = text, *end = text + length; line < end; lines++) {
        char *feed = memchr(line, '\n', (size_t)(end - line));
        size_t told = feed == NULL ? (size_t)(end - line) : (size_t)(feed + 1 - line);
        if (write(to[1], line, told) != (ssize_t)told || getline(&answer, &room, answers) <= 0) {
            return 1;
        }
        fputs(answer, stdout);
        line += told;
    }
    double took = now() - start;
    fprintf(stderr, "C over a pipe: %zu lines, %.3f s, %.0f lines/s\n", lines, took, lines / took);
    return 0;
}
