/* Opens 20,000 worlds, walks, shrinkers and sessions, does steps on them, copies, refuses and closes them. Under ASan and its leak check
   there is neither fault nor leak; without it the memory in use is about what it was after the first thousand: less than four bytes a
   handle more. */
#include "ct.h"
#include <malloc.h>
#include <stdio.h>
#include <string.h>

enum { HANDLES = 20000, WARM = 1000, TURNS = 12, SLACK = 65536 };

static void steps(ct_world *world, int turns) {
    ct_apply(world, CT_SUBMIT, 1, CT_SET, 0, 7);
    ct_apply(world, CT_SUBMIT, 2, CT_SET, 16, 7);
    for (int turn = 0; turn < turns; turn++) {
        for (uint8_t member = 1; member <= 3; member++) {
            ct_step step = ct_next(world, member);
            uint32_t serial;
            ct_standing_of(world, member);
            if (step.kind != 0) {
                ct_apply(world, step.kind, member, step.a, step.b, step.c);
            } else if (ct_waiting(world, member, &serial, 1) > 0) {
                ct_apply(world, CT_RECEIVE, member, serial, 0, 0);
            }
        }
    }
}

/* Turns of a walk in the world. */
static void walks(ct_world *world, int turns) {
    ct_walk walk = {0};
    ct_walk_options options = ct_walk_usual((uint8_t)(turns % 5), (uint32_t)turns);
    ct_walk_open(&walk, &options);
    for (int i = 0; i < turns; i++) {
        ct_step step = ct_walk_turn(&walk, world).step;
        ct_apply(world, step.kind, step.member, step.a, step.b, step.c);
    }
    ct_walk_close(&walk);
    ct_walk_close(&walk);
}

/* So many trials at most of the world's run; of four the first is not told. */
static void shrinks(const ct_world *world, int trials) {
    ct_shrink shrink = {0};
    ct_shrink_open(&shrink, world, trials % 2 == 0, (uint32_t)trials);
    while (ct_shrink_next(&shrink) == CT_DONE && trials != 4) {
        ct_world trial = {0};
        ct_world_open(&trial, 3, 4, 1048560);
        for (ct_step step; (step = ct_shrink_turn(&shrink, &trial).step).kind != 0;) {
            ct_apply(&trial, step.kind, step.member, step.a, step.b, step.c);
        }
        ct_shrink_told(&shrink, &trial, ct_waiting(&trial, 1, NULL, 0) > 0);
        ct_world_close(&trial);
    }
    ct_shrink_close(&shrink);
    ct_shrink_close(&shrink);
}

static bool with_world(int number) {
    ct_world world = {0}, other = {0};
    if (ct_world_open(&world, 3, 4, 1048560) != CT_DONE) {
        return false;
    }
    steps(&world, number % TURNS);
    walks(&world, number % TURNS);
    shrinks(&world, number % 5);
    if (number % 3 == 0) {
        ct_copy(&world, &other);
        steps(&other, 2);
    }
    ct_world_close(&world);
    ct_world_close(&other);
    ct_world_close(&world);
    return true;
}

static bool with_session(int number) {
    static const char text[] = "members 3\n1 submit set 0 7\n1 receive data 1.1\nall turns 30\nreport\nnonsense\n1 enter";
    ct_session session = {0};
    uint8_t room[8], record[4096];
    if (ct_session_open(&session) != CT_DONE) {
        return false;
    }
    ct_tell(&session, (const uint8_t *)text, sizeof text - 1);
    ct_answers(&session, room, sizeof room);
    if (number % 3 == 0) {
        ct_world world = {0};
        ct_record(&session);
        ct_open_record(&world, record, ct_answers(&session, record, sizeof record) - (size_t)(number % 4 / 2));
        ct_world_close(&world);
    }
    if (number % 5 == 0) {
        ct_diagram(&session);
    }
    ct_session_close(&session);
    ct_session_close(&session);
    return true;
}

int main(void) {
    size_t first = 0;
    for (int i = 0; i < HANDLES; i++) {
        bool done = i % 2 ? with_world(i) : with_session(i);
        if (!done) {
            puts("no memory");
            return 5;
        }
        if (i == WARM) {
            first = mallinfo2().uordblks;
        }
    }
    size_t last = mallinfo2().uordblks;
    printf("%d handles; bytes in use after %d and in the end: %zu %zu\n", HANDLES, WARM, first, last);
    return last > first + SLACK;
}
