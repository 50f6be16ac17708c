/* What the programs that are timed share. */
#include <stdio.h>
#include <stdlib.h>
#include <time.h>

/* Seconds of a clock that only goes forward. */
static double now(void) {
    struct timespec time;
    clock_gettime(CLOCK_MONOTONIC, &time);
    return (double)time.tv_sec + (double)time.tv_nsec / 1e9;
}

/* The bytes of a file, with a zero behind them; null where it can't be read. */
static char *whole(const char *path, size_t *length) {
    FILE *file = fopen(path, "rb");
    if (file == NULL || fseek(file, 0, SEEK_END) != 0) {
        return NULL;
    }
    *length = (size_t)ftell(file);
    rewind(file);
    char *text = malloc(*length + 1);
    if (text == NULL || fread(text, 1, *length, file) != *length) {
        return NULL;
    }
    fclose(file);
    text[*length] = 0;
    return text;
}
