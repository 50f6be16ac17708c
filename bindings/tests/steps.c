/* steps FILE: does the steps of a file by typed calls, and prints the record that the world has then. The file has the numbers of members,
   of cells and the bound, and then five numbers a step, as inputs.py writes them. The steps a second go to standard error. */
#include "ct.h"
#include "timed.h"
#include <inttypes.h>

static const char *const names[] = {"", "submit", "receive", "begin", "enter", "choose", "adopt", "suspect", "conclude", "deliver",
                                    "follow", "crash", "postpone", "lose", "repeat"};
static const char *const commands[] = {"", "set", "add", "copy"};

static void print(const ct_step *step) {
    printf("[\"%s\",%u", names[step->kind], (unsigned)step->member);
    if (step->kind == CT_SUBMIT) {
        printf(",[\"%s\",%u,%" PRIu64 "]", commands[step->a], (unsigned)step->b, step->c);
    } else if (step->kind == CT_CHOOSE || step->a != 0) {
        printf(",%" PRIu32, step->a);
    }
    printf("]");
}

static ct_step *read_steps(char *at, size_t *count) {
    ct_step *steps = NULL;
    size_t room = 0;
    for (*count = 0; *at != 0; ++*count) {
        if (*count == room) {
            room = room * 2 + 1024;
            steps = realloc(steps, room * sizeof *steps);
        }
        steps[*count] = (ct_step){.kind = (uint8_t)strtoull(at, &at, 10)};
        steps[*count].member = (uint8_t)strtoull(at, &at, 10);
        steps[*count].a = (uint32_t)strtoull(at, &at, 10);
        steps[*count].b = (uint8_t)strtoull(at, &at, 10);
        steps[*count].c = strtoull(at, &at, 10);
        at += *at == '\n';
    }
    return steps;
}

int main(int argc, char **argv) {
    size_t length, count;
    char *at = argc > 1 ? whole(argv[1], &length) : NULL;
    ct_world world = {0};
    if (at == NULL) {
        return 2;
    }
    uint8_t members = (uint8_t)strtoull(at, &at, 10);
    uint16_t cells = (uint16_t)strtoull(at, &at, 10);
    uint32_t bound = (uint32_t)strtoull(at, &at, 10);
    ct_step *steps = read_steps(at + 1, &count);
    if (ct_world_open(&world, members, cells, bound) != CT_DONE) {
        return 5;
    }
    double start = now();
    for (size_t i = 0; i < count; i++) {
        ct_effect effect = ct_apply(&world, steps[i].kind, steps[i].member, steps[i].a, steps[i].b, steps[i].c);
        if (effect.refusal != CT_DONE) {
            fprintf(stderr, "step %zu: refused %" PRIu32 "\n", i + 1, effect.refusal);
            return 1;
        }
    }
    double took = now() - start;
    fprintf(stderr, "C: %zu steps, %.3f s, %.0f steps/s\n", count, took, count / took);
    if (ct_steps(&world, 0, steps, count) != count) {
        return 1;
    }
    printf("{\"batch\":%" PRIu32 ",\"cells\":%u,\"n\":%u,\"steps\":[", bound, (unsigned)cells, (unsigned)members);
    for (size_t i = 0; i < count; i++) {
        fputs(i == 0 ? "" : ",", stdout);
        print(&steps[i]);
    }
    puts("],\"version\":3}");
    ct_world_close(&world);
    return 0;
}
