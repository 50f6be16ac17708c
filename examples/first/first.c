/* Three members deliver a message. The coordinator of round 1 proposes too early once, which is refused. */
#include <ct.h>
#include <inttypes.h>
#include <stdio.h>
#include <stdlib.h>

static void apply(ct_world *world, ct_step it) {
    if (ct_apply(world, it.kind, it.member, it.a, it.b, it.c).refusal != CT_DONE)
        exit(1);
}

/* The member's next step, or a receipt; whether it moved. */
static bool turn(ct_world *world, uint8_t member) {
    ct_step step = ct_next(world, member);
    uint32_t serial = 0;
    if (step.kind == 0 || step.kind == CT_SUSPECT) {
        if (ct_waiting(world, member, &serial, 1) == 0)
            return false;
        step = (ct_step){.kind = CT_RECEIVE, .member = member, .a = serial};
    }
    apply(world, step);
    return true;
}

int main(void) {
    ct_world world = {0};
    if (ct_world_open(&world, 3, 64, 1048560) != CT_DONE)
        return 5;
    apply(&world, (ct_step){.kind = CT_SUBMIT, .member = 1, .a = CT_SET, .c = 7});
    for (int i = 0; i < 3; i++)
        turn(&world, 2); /* receives, begins, enters round 1, which it coordinates */
    printf("refused %s\n", ct_refusal_name(ct_apply(&world, CT_CHOOSE, 2, 2, 0, 0).refusal));
    while (turn(&world, 1) | turn(&world, 2) | turn(&world, 3))
        ;
    for (uint8_t member = 1; member <= 3; member++) {
        ct_message it[1];
        uint64_t table[16];
        ct_delivered(&world, member, it, 1);
        ct_table(&world, member, table, 16);
        printf("member %u delivered %u.%" PRIu32 " register 0 is %" PRIu64 "\n", member, it[0].origin, it[0].number, table[0]);
    }
    ct_world_close(&world);
    return 0;
}
