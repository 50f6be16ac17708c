/* asked names: the names of what calls answer, by number. asked worlds FILE: what worlds answer to the words of tests/asking.py, in the
   same text. asked walks FILE: the records of walks with the options of tests/walking.py. asked shrinks FILE: the records of smaller runs
   of those of tests/shrinking.py. */
#include "ct.h"
#include <inttypes.h>
#include <stdio.h>
#include <stdlib.h>
#include <string.h>

enum { MEMBERS = 16, REGISTERS = 16, LOOKED_BACK = 150 };

static const char *const names[] = {"-", "submit", "receive", "begin", "enter", "choose", "adopt", "suspect", "conclude", "deliver",
                                    "follow", "crash", "postpone", "lose", "repeat"};
static const char *const commands[] = {"", "set", "add", "copy"};
static const char *const phases[] = {"-", "Rest", "Gather", "Wait", "Tally"};
static const char *const kinds[] = {"-", "data", "est", "prop", "ack", "nack", "dec"};

/* The world that is asked, and the last serial that it sent. */
static struct {
    ct_world world;
    unsigned members, cells;
    uint32_t bound, last;
} now;

static void print_step(FILE *out, const ct_step *step) {
    if (step->kind == 0) {
        fputs("-", out);
        return;
    }
    fprintf(out, "[\"%s\",%u", names[step->kind], (unsigned)step->member);
    if (step->kind == CT_SUBMIT) {
        fprintf(out, ",[\"%s\",%u,%" PRIu64 "]", commands[step->a], (unsigned)step->b, step->c);
    } else if (step->kind == CT_RECEIVE || step->kind == CT_CHOOSE || step->kind >= CT_POSTPONE) {
        fprintf(out, ",%" PRIu32, step->a);
    }
    fputs("]", out);
}

static void print_message(const ct_message *it) {
    const char *command = commands[it->command];
    printf(" %u.%" PRIu32 "=%s,%u,%" PRIu64, (unsigned)it->origin, it->number, command, (unsigned)it->reg, it->value);
}

enum list { RECEIVED, DELIVERED, DECIDED, VALUE };

static size_t fill(enum list list, uint8_t member, uint32_t number, ct_message *room, size_t length) {
    switch (list) {
    case RECEIVED: return ct_received(&now.world, member, room, length);
    case DELIVERED: return ct_delivered(&now.world, member, room, length);
    case DECIDED: return ct_decided(&now.world, member, number, room, length);
    default: return ct_value(&now.world, number, room, length);
    }
}

static void print_list(enum list list, uint8_t member, uint32_t number) {
    size_t count = fill(list, member, number, NULL, 0);
    if (count == CT_NONE) {
        puts(" -");
        return;
    }
    ct_message *room = calloc(count + 1, sizeof *room);
    fill(list, member, number, room, count);
    for (size_t i = 0; i < count; i++) {
        print_message(&room[i]);
    }
    free(room);
    puts("");
}

static void print_refusal(uint32_t refusal) {
    printf(" %s", refusal == CT_DONE ? "ok" : ct_refusal_name(refusal));
}

static void print_set(const char *name, uint16_t set) {
    printf(" %s", name);
    for (unsigned member = 1; member <= MEMBERS; member++) {
        if (set >> (member - 1) & 1) {
            printf(" %u", member);
        }
    }
}

static void print_standing(const ct_standing *it) {
    printf("stands %" PRIu32 " %" PRIu32 " %s %" PRIu32, it->instance, it->round, phases[it->phase], it->ts);
    printf("%s heard", it->has_crashed ? " crashed" : "");
    for (unsigned i = 0; i < MEMBERS; i++) {
        if (it->heard >> i & 1) {
            printf(" %u:%" PRIu32, i + 1, it->heard_ts[i]);
        } else if (it->heard_ts[i] != 0) {
            printf(" none of %u", i + 1);
        }
    }
    print_set("acked", it->acked);
    print_set("replied", it->replied);
    puts("");
}

static void ask_member(uint8_t member) {
    static const uint8_t own_steps[] = {CT_BEGIN, CT_ENTER, CT_CHOOSE, CT_ADOPT, CT_SUSPECT, CT_CONCLUDE, CT_DELIVER, CT_FOLLOW};
    static const uint32_t instances[] = {0, 1, 2, 3, 4, 5, 256, 257};
    bool has_crashed = ct_enabled(&now.world, CT_CRASH, member, 0, 0, 0) == CT_CRASHED;
    ct_standing standing = ct_standing_of(&now.world, member);
    printf("member %u %s\n", (unsigned)standing.member, has_crashed ? "crashed" : "up");
    print_standing(&standing);
    printf("next ");
    ct_step next = ct_next(&now.world, member);
    print_step(stdout, &next);
    printf("\nmay");
    for (size_t i = 0; i < sizeof own_steps / sizeof *own_steps; i++) {
        print_refusal(ct_enabled(&now.world, own_steps[i], member, own_steps[i] == CT_CHOOSE, 0, 0));
    }
    size_t count = ct_waiting(&now.world, member, NULL, 0);
    uint32_t *serials = calloc(count + 1, sizeof *serials);
    ct_waiting(&now.world, member, serials, count);
    printf("\nwaiting");
    for (size_t i = 0; i < count; i++) {
        printf(" %" PRIu32, serials[i]);
    }
    free(serials);
    printf("\nreceived");
    print_list(RECEIVED, member, 0);
    printf("delivered");
    print_list(DELIVERED, member, 0);
    uint64_t table[REGISTERS] = {0};
    ct_table(&now.world, member, table, REGISTERS);
    printf("table");
    for (int i = 0; i < REGISTERS; i++) {
        printf(" %" PRIu64, table[i]);
    }
    puts("");
    for (size_t i = 0; i < sizeof instances / sizeof *instances; i++) {
        printf("decided %" PRIu32, instances[i]);
        print_list(DECIDED, member, instances[i]);
    }
}

static void ask_envelope(uint32_t serial) {
    ct_letter it = ct_envelope(&now.world, serial);
    printf("#%" PRIu32 " %s", serial, kinds[it.kind]);
    if (it.kind == CT_DATA) {
        printf(" to %u", (unsigned)it.to);
        print_message(&it.message);
    } else if (it.kind != 0) {
        printf(" to %u %" PRIu32 "/%" PRIu32, (unsigned)it.to, it.instance, it.round);
    }
    if (it.kind == CT_EST || it.kind == CT_ACK || it.kind == CT_NACK) {
        printf(" from %u", (unsigned)it.from);
    }
    if (it.kind == CT_EST) {
        printf(" ts %" PRIu32, it.ts);
    }
    printf(" value");
    print_list(VALUE, 0, serial);
}

static void ask(void) {
    for (uint8_t member = 1; member <= now.members; member++) {
        ask_member(member);
    }
    for (uint32_t serial = now.last > LOOKED_BACK ? now.last - LOOKED_BACK : 0; serial <= now.last + 1; serial++) {
        ask_envelope(serial);
    }
}

static ct_effect apply(uint8_t kind, uint8_t member, uint32_t a, uint8_t b, uint64_t c) {
    ct_effect effect = ct_apply(&now.world, kind, member, a, b, c);
    now.last = effect.count > 0 ? effect.first + effect.count - 1 : now.last;
    return effect;
}

/* The step so many times; what the last one came to. */
static void steps(uint32_t times, uint8_t kind, uint8_t member, uint32_t a, uint8_t b, uint64_t c) {
    uint32_t enabled = CT_DONE;
    ct_effect effect = {0};
    for (uint32_t i = 1; i <= times; i++) {
        enabled = i == times ? ct_enabled(&now.world, kind, member, a, b, c) : CT_DONE;
        effect = apply(kind, member, a, b, c);
    }
    printf("came to");
    print_refusal(enabled);
    print_refusal(effect.refusal);
    printf(" %" PRIu32 " %" PRIu32 "\n", effect.first, effect.count);
}

/* Turns of the member: its next step, else a receipt, or the other way round, and then it suspects nobody; how many steps were done. */
static void turns(uint32_t times, uint8_t member, bool receives_first) {
    uint32_t done = 0;
    for (uint32_t i = 0; i < times; i++) {
        ct_step next = ct_next(&now.world, member);
        uint32_t serial;
        bool waits = ct_waiting(&now.world, member, &serial, 1) > 0;
        if (next.kind == CT_SUSPECT && receives_first) {
            next = (ct_step){0};
        }
        if (waits && (receives_first || next.kind == 0)) {
            next = (ct_step){.kind = CT_RECEIVE, .member = member, .a = serial};
        }
        done += next.kind != 0 && apply(next.kind, next.member, next.a, next.b, next.c).refusal == CT_DONE;
    }
    printf("%" PRIu32 "\n", done);
}

static void print_record(FILE *out, const ct_world *world) {
    size_t count = ct_steps(world, 0, NULL, 0);
    ct_step *room = calloc(count + 1, sizeof *room);
    ct_steps(world, 0, room, count);
    fprintf(out, "{\"batch\":%" PRIu32 ",\"cells\":%u,\"n\":%u,\"steps\":[", now.bound, now.cells, now.members);
    for (size_t i = 0; i < count; i++) {
        fputs(i == 0 ? "" : ",", out);
        print_step(out, &room[i]);
    }
    fputs("],\"version\":3}\n", out);
    free(room);
}

/* The record of the world, and of a copy's record opened again, which is asked from here on. */
static void record(void) {
    ct_world copy = {0};
    char *text = NULL;
    size_t length = 0;
    FILE *memory = open_memstream(&text, &length);
    print_record(stdout, &now.world);
    if (ct_copy(&now.world, &copy) != CT_DONE) {
        puts("no copy");
    }
    ct_world_close(&now.world);
    print_record(memory, &copy);
    fclose(memory);
    ct_world_close(&copy);
    ct_opened opened = ct_open_record(&now.world, (const uint8_t *)text, length);
    if (opened.refusal != CT_DONE || opened.at != 0) {
        puts("not opened");
    }
    now.members = opened.members, now.cells = opened.cells, now.bound = opened.bound;
    print_record(stdout, &now.world);
    free(text);
}

static void open(const uint64_t *n) {
    ct_world_close(&now.world);
    now.members = (unsigned)n[0], now.cells = (unsigned)n[1], now.bound = (uint32_t)n[2], now.last = 0;
    if (ct_world_open(&now.world, (uint8_t)n[0], (uint16_t)n[1], (uint32_t)n[2]) != CT_DONE) {
        puts("not opened");
    }
}

static void worlds(FILE *file) {
    char line[160], word[8];
    while (fgets(line, sizeof line, file) != NULL) {
        uint64_t n[6] = {0};
        sscanf(line, "%7s %" SCNu64 " %" SCNu64 " %" SCNu64 " %" SCNu64 " %" SCNu64 " %" SCNu64, word, &n[0], &n[1], &n[2], &n[3],
               &n[4], &n[5]);
        if (strcmp(word, "world") == 0) {
            open(n);
        } else if (strcmp(word, "step") == 0) {
            steps((uint32_t)n[0], (uint8_t)n[1], (uint8_t)n[2], (uint32_t)n[3], (uint8_t)n[4], n[5]);
        } else if (strcmp(word, "ask") == 0) {
            ask();
        } else if (strcmp(word, "record") == 0) {
            record();
        } else {
            turns((uint32_t)n[0], (uint8_t)n[1], strcmp(word, "take") == 0);
        }
    }
    ct_world_close(&now.world);
}

/* The options of a line, in the order of ct.h. */
static ct_walk_options options_of(char *at) {
    uint32_t n[16];
    for (int i = 0; i < 16; i++) {
        n[i] = (uint32_t)strtoul(at, &at, 10);
    }
    return (ct_walk_options){n[0], n[1], n[2], n[3], (uint16_t)n[4], (uint16_t)n[5], (uint16_t)n[6], (uint16_t)n[7], (uint16_t)n[8],
                             (uint16_t)n[9], (uint16_t)n[10], (uint16_t)n[11], (uint16_t)n[12], (uint8_t)n[13], (uint8_t)n[14],
                             (uint8_t)n[15]};
}

static void walks(FILE *file) {
    char line[160];
    while (fgets(line, sizeof line, file) != NULL) {
        ct_walk walk = {0};
        ct_walk_options options = options_of(line);
        open((uint64_t[]){options.members, options.cells, options.batch});
        if (ct_walk_open(&walk, &options) != CT_DONE) {
            puts("not opened");
        }
        ct_turn turn;
        while (turn = ct_walk_turn(&walk, &now.world), turn.kind == CT_TURN_STEP || turn.kind == CT_TURN_REST) {
            if (turn.kind == CT_TURN_STEP) {
                apply(turn.step.kind, turn.step.member, turn.step.a, turn.step.b, turn.step.c);
            }
        }
        print_record(stdout, &now.world);
        ct_walk_close(&walk);
    }
    ct_world_close(&now.world);
}

/* Whether the world shows the goal of this place in GOALS of tests/shrinking.py. */
static bool shows(int goal) {
    unsigned shown = 0;
    for (uint8_t member = 1; member <= now.members; member++) {
        ct_standing it = ct_standing_of(&now.world, member);
        shown += goal == 0 && ct_delivered(&now.world, member, NULL, 0) >= 2;
        shown += goal == 1 && it.round >= 3;
        shown += goal == 2 && member == 1 && ct_decided(&now.world, member, 1, NULL, 0) != CT_NONE;
        shown += goal == 3 && it.phase == CT_WAIT && it.round >= 2;
    }
    return goal == 3 ? shown == now.members : shown > 0;
}

/* The steps, in a fresh world, until the goal is shown there, if there is one; whether it is. */
static bool tried(ct_shrink *shrink, int goal) {
    ct_turn turn;
    open((uint64_t[]){now.members, now.cells, now.bound});
    while (goal < 0 || !shows(goal)) {
        turn = ct_shrink_turn(shrink, &now.world);
        if (turn.kind != CT_TURN_STEP) {
            return false;
        }
        if (apply(turn.step.kind, turn.step.member, turn.step.a, turn.step.b, turn.step.c).refusal != CT_DONE) {
            puts("refused");
        }
    }
    return true;
}

static void shrinks(FILE *file) {
    char *line = NULL;
    size_t size = 0;
    for (ssize_t length; (length = getline(&line, &size, file)) > 0;) {
        ct_shrink shrink = {0};
        char *at = line;
        int goal = (int)strtol(at, &at, 10);
        bool names_members = strtol(at, &at, 10) == 1;
        uint32_t trials = (uint32_t)strtoul(at, &at, 10);
        ct_world_close(&now.world);
        ct_opened opened = ct_open_record(&now.world, (const uint8_t *)at, (size_t)(line + length - at));
        now.members = opened.members, now.cells = opened.cells, now.bound = opened.bound;
        if (opened.refusal != CT_DONE || ct_shrink_open(&shrink, &now.world, names_members, trials) != CT_DONE) {
            puts("not opened");
        }
        while (ct_shrink_next(&shrink) == CT_DONE) {
            bool passed = tried(&shrink, goal);
            if (ct_shrink_told(&shrink, &now.world, passed) != CT_DONE) {
                puts("not told");
            }
        }
        tried(&shrink, -1);
        print_record(stdout, &now.world);
        ct_shrink_close(&shrink);
    }
    free(line);
    ct_world_close(&now.world);
}

int main(int argc, char **argv) {
    if (argc == 2) {
        for (uint32_t number = CT_DONE; number <= CT_NO_TRIAL; number++) {
            printf("%" PRIu32 " %s\n", number, ct_refusal_name(number));
        }
        return strcmp(ct_refusal_name(CT_NO_TRIAL + 1), "?") != 0;
    }
    FILE *file = argc == 3 ? fopen(argv[2], "r") : NULL;
    if (file == NULL) {
        return 2;
    }
    (strcmp(argv[1], "walks") == 0 ? walks : strcmp(argv[1], "shrinks") == 0 ? shrinks : worlds)(file);
    fclose(file);
    return 0;
}
