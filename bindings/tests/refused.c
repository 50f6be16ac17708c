/* Refuses each allocation of a scenario in turn. Linked with -Wl,--wrap=malloc,--wrap=realloc,--wrap=free: the n-th call for memory answers
   null. Then the call that asked answers CT_OUT_OF_MEMORY and leaves what its contract says, and the scenario is done again where it was
   stopped; or it asked for room ahead, and comes to what it comes to with ample memory. All memory is given back. Prints `N passed, M
   failed`, where N is the number of allocations. */
#include "ct.h"
#include <stdio.h>
#include <stdlib.h>
#include <string.h>

void *__real_malloc(size_t n);
void *__real_realloc(void *at, size_t n);
void __real_free(void *at);

static long asked, refused_at, held;
static bool has_refused;

static bool refuses(void) {
    has_refused = has_refused || asked + 1 == refused_at;
    return ++asked == refused_at;
}

void *__wrap_malloc(size_t n) {
    void *at = refuses() ? NULL : __real_malloc(n);
    held += at != NULL;
    return at;
}

void *__wrap_realloc(void *at, size_t n) {
    void *new = refuses() ? NULL : __real_realloc(at, n);
    held += new != NULL && at == NULL;
    return new;
}

void __wrap_free(void *at) {
    held -= at != NULL;
    __real_free(at);
}

/* The scenario in which no allocation is refused, and what the world's record has in it at its end. */
enum { NEVER = -1 };
static size_t ample_steps;

/* How many calls were done though an allocation was refused in them: room ahead for the first receipts of messages and of
   decisions by three members, some times; in the world of each trial for those of a message. */
enum { MOST_WITHOUT_ROOM = 66 };
static int without_room;

/* Whether what happened here is what should: the call is refused only where an allocation was. */
static bool is_told(uint32_t status, bool refused_before) {
    bool refused_here = has_refused && !refused_before;
    without_room += refused_here && status != CT_OUT_OF_MEMORY;
    return refused_here || status != CT_OUT_OF_MEMORY;
}

static size_t steps_of(const ct_world *world) { return ct_steps(world, 0, NULL, 0); }

/* The step; where memory is refused nothing has changed, and the second try does it. */
static bool step(ct_world *world, uint8_t kind, uint8_t member, uint32_t a, uint8_t b, uint64_t c) {
    bool before = has_refused;
    size_t steps = steps_of(world);
    uint32_t status = ct_apply(world, kind, member, a, b, c).refusal;
    if (!is_told(status, before)) {
        return false;
    }
    if (status == CT_OUT_OF_MEMORY) {
        return steps_of(world) == steps && ct_apply(world, kind, member, a, b, c).refusal == CT_DONE;
    }
    return steps_of(world) == steps + (status == CT_DONE);
}

static bool turns(ct_world *world) {
    bool good = true;
    for (int round = 0; round < 40; round++) {
        good = good && step(world, CT_SUBMIT, (uint8_t)(round % 3 + 1), CT_ADD, 1, 1);
        for (uint8_t member = 1; member <= 3; member++) {
            ct_step next = ct_next(world, member);
            uint32_t serial;
            good = good && ct_standing_of(world, member).member == member;
            if (next.kind != 0 && next.kind != CT_SUSPECT) {
                good = good && step(world, next.kind, member, next.a, next.b, next.c);
            } else if (ct_waiting(world, member, &serial, 1) > 0) {
                good = good && step(world, round % 7 ? CT_RECEIVE : CT_POSTPONE, member, serial, 0, 0);
            }
        }
    }
    return good;
}

/* A walk, opened where memory may be refused, whose turns ask for none. */
static bool walks(const ct_world *world) {
    ct_walk walk = {0};
    ct_walk_options options = ct_walk_usual(3, 7);
    options.postpone = 9;
    bool before = has_refused;
    uint32_t status = ct_walk_open(&walk, &options);
    bool good = is_told(status, before) && (status == CT_DONE) == walk.is_open;
    long asked_before = asked;
    for (int i = 0; i < 99; i++) {
        good = good && (ct_walk_turn(&walk, world).kind != 0) == walk.is_open;
    }
    good = good && asked == asked_before;
    ct_walk_close(&walk);
    return good;
}

/* A world, opened where memory may be refused. */
static bool opens(ct_world *world) {
    bool before = has_refused;
    uint32_t status = ct_world_open(world, 3, 64, 1048560);
    bool good = is_told(status, before) && (status == CT_DONE) == world->is_open;
    return good && (status == CT_DONE || ct_world_open(world, 3, 64, 1048560) == CT_DONE);
}

/* A step of a trial, which asks for no memory; its kind is 0 behind the last. */
static ct_step next_of(ct_shrink *shrink, const ct_world *trial, bool *good) {
    long asked_before = asked;
    ct_turn turn = ct_shrink_turn(shrink, trial);
    *good = *good && asked == asked_before && turn.kind == (turn.step.kind != 0 ? CT_TURN_STEP : CT_TURN_OVER);
    return turn.step;
}

/* The trial, until member 1 is in round 2. */
static bool trial(ct_shrink *shrink) {
    ct_world world = {0};
    bool good = opens(&world), before;
    bool passed = false;
    for (ct_step it = {.kind = CT_SUBMIT}; good && !passed && it.kind != 0; passed = ct_standing_of(&world, 1).round == 2) {
        it = next_of(shrink, &world, &good);
        good = good && (it.kind == 0 || step(&world, it.kind, it.member, it.a, it.b, it.c));
    }
    before = has_refused;
    uint32_t status = ct_shrink_told(shrink, &world, passed);
    good = good && is_told(status, before) && (status == CT_DONE || ct_shrink_told(shrink, &world, passed) == CT_DONE);
    ct_world_close(&world);
    return good;
}

/* What is left of the run, in which member 1 suspects member 2 and enters round 2: six steps, where memory may be refused. */
static bool shrinks(void) {
    static const ct_step run[] = {
        {.kind = CT_SUBMIT, .member = 3, .a = CT_SET, .c = 5}, {.kind = CT_SUBMIT, .member = 1, .a = CT_SET, .c = 7},
        {.kind = CT_RECEIVE, .member = 1, .a = 4}, {.kind = CT_BEGIN, .member = 1}, {.kind = CT_CRASH, .member = 2},
        {.kind = CT_ENTER, .member = 1}, {.kind = CT_SUSPECT, .member = 1}, {.kind = CT_ENTER, .member = 1},
    };
    ct_world world = {0}, least = {0};
    ct_shrink shrink = {0};
    bool good = opens(&world), before;
    for (size_t i = 0; i < sizeof run / sizeof *run; i++) {
        good = good && step(&world, run[i].kind, run[i].member, run[i].a, run[i].b, run[i].c);
    }
    before = has_refused;
    uint32_t status = ct_shrink_open(&shrink, &world, true, 99);
    good = good && is_told(status, before) && (status == CT_DONE) == shrink.is_open;
    good = good && (status == CT_DONE || ct_shrink_open(&shrink, &world, true, 99) == CT_DONE);
    for (status = CT_DONE; good && status != CT_NO_TRIAL;) {
        before = has_refused;
        status = ct_shrink_next(&shrink);
        good = is_told(status, before) && (status != CT_DONE || trial(&shrink));
    }
    good = good && ct_shrink_is_least(&shrink) && opens(&least);
    for (ct_step it; good && (it = next_of(&shrink, &least, &good)).kind != 0;) {
        good = good && step(&least, it.kind, it.member, it.a, it.b, it.c);
    }
    good = good && steps_of(&least) == 6 && ct_standing_of(&least, 1).round == 2;
    ct_shrink_close(&shrink);
    ct_world_close(&world);
    ct_world_close(&least);
    return good;
}

static bool worlds(void) {
    ct_world world = {0}, other = {0};
    bool good = opens(&world) && turns(&world), before;
    ample_steps = refused_at == NEVER ? steps_of(&world) : ample_steps;
    good = good && steps_of(&world) == ample_steps && walks(&world);
    before = has_refused;
    uint32_t status = ct_copy(&world, &other);
    good = good && is_told(status, before) && (status == CT_DONE) == other.is_open;
    good = good && (status != CT_DONE || steps_of(&other) == steps_of(&world));
    ct_world_close(&world);
    ct_world_close(&other);
    return good;
}

/* A world from the record that waits to be copied. */
static bool reopened(const ct_session *session) {
    static uint8_t room[4096];
    ct_world world = {0};
    size_t length = ct_answers(session, room, sizeof room);
    bool before = has_refused;
    ct_opened opened = ct_open_record(&world, room, length);
    bool good = length <= sizeof room && is_told(opened.refusal, before) && (opened.refusal == CT_DONE) == world.is_open;
    good = good && (opened.refusal == CT_DONE || opened.refusal == CT_OUT_OF_MEMORY);
    ct_world_close(&world);
    return good;
}

static bool sessions(void) {
    static const char text[] = "members 3\n1 submit set 0 7\nall turns 12\n2 begin\nreport\nstate 1\nexpect all delivered 1.1\nwaiting 2\n";
    ct_session session = {0};
    bool before = has_refused, good;
    uint32_t status = ct_session_open(&session);
    good = is_told(status, before) && (status == CT_DONE) == session.is_open;
    if (status == CT_DONE) {
        before = has_refused;
        status = ct_tell(&session, (const uint8_t *)text, sizeof text - 1);
        good = good && is_told(status, before) && (status == CT_DONE) == session.is_open;
    }
    for (int i = 0; session.is_open && i < 2; i++) {
        before = has_refused;
        status = i == 0 ? ct_record(&session) : ct_diagram(&session);
        good = good && is_told(status, before) && session.is_open && (status == CT_DONE || ct_answers_length(&session) == 0);
        good = good && (i > 0 || status != CT_DONE || reopened(&session));
    }
    ct_session_close(&session);
    return good;
}

int main(void) {
    int passed = 0, failed = 0;
    refused_at = NEVER;
    if (!worlds() || !shrinks() || !sessions() || ample_steps == 0) {
        printf("FAILED with ample memory\n");
        return 1;
    }
    refused_at = 0;
    do {
        asked = 0, has_refused = false, refused_at++;
        bool good = worlds();
        good = shrinks() && good;
        good = sessions() && good;
        good = good && held == 0;
        passed += good;
        failed += !good;
        if (!good) {
            held = 0;
            printf("FAILED allocation %ld\n", refused_at);
        }
    } while (has_refused);
    failed += without_room > MOST_WITHOUT_ROOM;
    printf("%d passed, %d failed\n", passed, failed);
    return failed != 0;
}
