/* lines FILE [once]: tells a session the lines of a file, one at a time or all at once, and prints the answers. The lines a second go to
   standard error. */
#include "ct.h"
#include "timed.h"
#include <string.h>

enum { ROOM = 1 << 26 };

int main(int argc, char **argv) {
    size_t length;
    char *text = argc > 1 ? whole(argv[1], &length) : NULL;
    uint8_t *answers = malloc(ROOM);
    ct_session session = {0};
    if (text == NULL || answers == NULL || ct_session_open(&session) != CT_DONE) {
        return 2;
    }
    size_t said = 0, lines = 0;
    double start = now();
    for (char *line = text, *end = text + length; line < end;) {
        char *feed = argc > 2 ? NULL : memchr(line, '\n', (size_t)(end - line));
        char *next = feed == NULL ? end : feed + 1;
        if (ct_tell(&session, (const uint8_t *)line, (size_t)(next - line)) != CT_DONE) {
            return 5;
        }
        size_t waiting = ct_answers(&session, answers + said, ROOM - said);
        if (waiting > ROOM - said) {
            return 5;
        }
        said += waiting;
        line = next;
    }
    double took = now() - start;
    for (size_t i = 0; i < said; i++) {
        lines += answers[i] == '\n';
    }
    fprintf(stderr, "C: %zu lines, %.3f s, %.0f lines/s\n", lines, took, lines / took);
    fwrite(answers, 1, said, stdout);
    ct_session_close(&session);
    return 0;
}
