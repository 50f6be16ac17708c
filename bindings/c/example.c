/* A rehearsal in C: two members of three broadcast, the coordinator of the first round crashes, and the others deliver the same.

       bindings/build.sh
       cc -Ibindings bindings/c/example.c bindings/out/libct.a -o example && ./example

   prints what each member delivered. Status 1: a step was refused that shouldn't be; 5: out of memory. */
#include "ct.h"
#include <inttypes.h>
#include <stdio.h>
#include <stdlib.h>

enum { MEMBERS = 3, CELLS = 4, UNBOUNDED = 1048560, SHOWN = 8 };

/* Ends the program where a step was refused. */
static ct_effect done(ct_effect effect) {
    if (effect.refusal != CT_DONE) {
        fprintf(stderr, "refused: %" PRIu32 "\n", effect.refusal);
        exit(effect.refusal == CT_OUT_OF_MEMORY ? 5 : 1);
    }
    return effect;
}

/* Receives what waits longest at the member; whether there was something. */
static bool receive(ct_world *world, uint8_t member) {
    uint32_t serial;
    size_t waiting = ct_waiting(world, member, &serial, 1);
    if (waiting == 0 || waiting == CT_NONE) {
        return false;
    }
    return ct_apply(world, CT_RECEIVE, member, serial, 0, 0).refusal == CT_DONE;
}

/* The step that comes next at the member, or a receipt; whether it moved. It takes its coordinator for crashed only if it `suspects`. */
static bool turn(ct_world *world, uint8_t member, bool suspects) {
    ct_step step = ct_next(world, member);
    if (step.kind == 0 || (step.kind == CT_SUSPECT && !suspects)) {
        return receive(world, member);
    }
    done(ct_apply(world, step.kind, step.member, step.a, step.b, step.c));
    return true;
}

/* Turns of members 1 and 3 until neither moves. They suspect a coordinator where nothing else is left to do. */
static void run(ct_world *world) {
    bool moved = true;
    while (moved) {
        moved = turn(world, 1, false) | turn(world, 3, false);
        if (!moved) {
            moved = turn(world, 1, true) | turn(world, 3, true);
        }
    }
}

int main(void) {
    ct_world world = {0};
    if (ct_world_open(&world, MEMBERS, CELLS, UNBOUNDED) != CT_DONE) {
        return 5;
    }
    done(ct_apply(&world, CT_SUBMIT, 1, CT_SET, 0, 7));
    done(ct_apply(&world, CT_SUBMIT, 3, CT_ADD, 0, 5));
    /* Member 2 coordinates round 1. */
    done(ct_apply(&world, CT_CRASH, 2, 0, 0, 0));
    run(&world);
    for (uint8_t member = 1; member <= MEMBERS; member++) {
        ct_message delivered[SHOWN];
        size_t count = ct_delivered(&world, member, delivered, SHOWN);
        printf("member %u delivered", (unsigned)member);
        for (size_t i = 0; i < count && i < SHOWN; i++) {
            printf(" %u.%" PRIu32, (unsigned)delivered[i].origin, delivered[i].number);
        }
        puts("");
    }
    ct_world_close(&world);
    return 0;
}
