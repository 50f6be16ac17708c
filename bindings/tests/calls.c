/* What calls answer on closed handles, in the wrong order, with wrong numbers and lengths, and on two threads with a handle each.
   Prints `N passed, M failed`. */
#include "ct.h"
#include <pthread.h>
#include <stdio.h>
#include <string.h>

enum { MEMBERS = 3, CELLS = 8, BOUND = 1048560, ROUNDS = 2000 };

static int passed, failed;

static void check(const char *what, bool holds) {
    passed += holds;
    failed += !holds;
    if (!holds) {
        printf("FAILED %s\n", what);
    }
}

static size_t steps_of(const ct_world *world) { return ct_steps(world, 0, NULL, 0); }

/* There is no such member. */
static bool stands_nowhere(const ct_world *world, uint8_t member) {
    static const ct_standing nowhere = {0};
    ct_standing it = ct_standing_of(world, member);
    return it.instance == 0 && it.round == 0 && it.ts == 0 && memcmp(it.heard_ts, nowhere.heard_ts, sizeof it.heard_ts) == 0 &&
        it.heard == 0 && it.acked == 0 && it.replied == 0 && it.member == 0 && it.phase == 0 && !it.has_crashed;
}

/* Each call on a closed world. */
static void closed_world(ct_world *world, const char *what) {
    ct_message message;
    ct_step step;
    uint32_t serial;
    uint64_t value;
    ct_world other = {0};
    check(what, !world->is_open && ct_apply(world, CT_CRASH, 1, 0, 0, 0).refusal == CT_NOT_OPEN);
    check(what, ct_apply(world, CT_CRASH, 1, 0, 0, 0).first == 0 && ct_apply(world, CT_CRASH, 1, 0, 0, 0).count == 0);
    check(what, ct_enabled(world, CT_CRASH, 1, 0, 0, 0) == CT_NOT_OPEN);
    check(what, ct_next(world, 1).kind == 0 && ct_envelope(world, 1).kind == 0);
    check(what, stands_nowhere(world, 1));
    check(what, ct_steps(world, 0, &step, 1) == CT_NONE && ct_waiting(world, 1, &serial, 1) == CT_NONE);
    check(what, ct_value(world, 1, &message, 1) == CT_NONE && ct_received(world, 1, &message, 1) == CT_NONE);
    check(what, ct_decided(world, 1, 1, &message, 1) == CT_NONE && ct_delivered(world, 1, &message, 1) == CT_NONE);
    check(what, ct_table(world, 1, &value, 1) == CT_NONE);
    check(what, ct_copy(world, &other) == CT_NOT_OPEN && !other.is_open);
    ct_world_close(world);
    check(what, !world->is_open && world->at == NULL);
}

static void setups(void) {
    static const struct {
        uint8_t members;
        uint16_t cells;
        uint32_t bound;
    } bad[] = {{0, 1, 1}, {17, 1, 1}, {255, 1, 1}, {3, 1025, 1}, {3, 65535, 1}, {3, 1, 0}, {3, 1, 1048561}, {3, 1, UINT32_MAX}};
    ct_world world = {0};
    for (size_t i = 0; i < sizeof bad / sizeof *bad; i++) {
        check("a bad setup", ct_world_open(&world, bad[i].members, bad[i].cells, bad[i].bound) == CT_BAD_SETUP && !world.is_open);
    }
    check("the largest setup", ct_world_open(&world, 16, 1024, 1048560) == CT_DONE && world.is_open);
    ct_world_close(&world);
    check("the least setup", ct_world_open(&world, 1, 0, 1) == CT_DONE && world.is_open);
    ct_world_close(&world);
    closed_world(&world, "a world that was closed");
}

static void bad_steps(ct_world *world) {
    static const ct_step bad[] = {
        {.kind = 0}, {.kind = 15}, {.kind = 255}, {.kind = CT_BEGIN, .a = 1}, {.kind = CT_BEGIN, .b = 1}, {.kind = CT_BEGIN, .c = 1},
        {.kind = CT_RECEIVE, .a = 1, .b = 1}, {.kind = CT_RECEIVE, .a = 1, .c = 1}, {.kind = CT_CHOOSE, .a = 256},
        {.kind = CT_CHOOSE, .a = 1, .c = 1}, {.kind = CT_SUBMIT}, {.kind = CT_SUBMIT, .a = 4}, {.kind = CT_SUBMIT, .a = 256 + CT_SET},
        {.kind = CT_SUBMIT, .a = CT_COPY, .c = 256},
    };
    for (size_t i = 0; i < sizeof bad / sizeof *bad; i++) {
        const ct_step *it = &bad[i];
        ct_effect effect = ct_apply(world, it->kind, 1, it->a, it->b, it->c);
        check("a bad step", effect.refusal == CT_BAD_STEP && effect.first == 0 && effect.count == 0);
        check("a bad step", ct_enabled(world, it->kind, 1, it->a, it->b, it->c) == CT_BAD_STEP);
    }
    check("a bad step changes nothing", steps_of(world) == 0);
}

static void order(void) {
    ct_world world = {0}, other = {0};
    closed_world(&world, "a world that was never opened");
    check("open", ct_world_open(&world, MEMBERS, CELLS, BOUND) == CT_DONE);
    bad_steps(&world);
    check("submit", ct_apply(&world, CT_SUBMIT, 1, CT_SET, 0, 7).count == MEMBERS);
    void *at = world.at;
    check("opened again", ct_world_open(&world, 1, 1, 1) == CT_ALREADY_OPEN && world.at == at && steps_of(&world) == 1);
    check("no member", ct_apply(&world, CT_BEGIN, 4, 0, 0, 0).refusal == CT_NO_SUCH_MEMBER);
    check("no register", ct_apply(&world, CT_SUBMIT, 1, CT_SET, 16, 7).refusal == CT_BAD_COMMAND);
    check("begin too soon", ct_apply(&world, CT_BEGIN, 1, 0, 0, 0).refusal == CT_NOTHING);
    check("begin too soon", ct_enabled(&world, CT_BEGIN, 1, 0, 0, 0) == CT_NOTHING);
    check("another's serial", ct_apply(&world, CT_RECEIVE, 1, 2, 0, 0).refusal == CT_NOT_WAITING);
    check("a refusal changes nothing", steps_of(&world) == 1);
    check("copy", ct_copy(&world, &other) == CT_DONE && steps_of(&other) == 1);
    check("copy into an open one", ct_copy(&world, &other) == CT_ALREADY_OPEN && steps_of(&other) == 1);
    check("a copy is another world", ct_apply(&other, CT_CRASH, 2, 0, 0, 0).refusal == CT_DONE && steps_of(&world) == 1);
    check("a copy of itself", ct_copy(&world, &world) == CT_ALREADY_OPEN && steps_of(&world) == 1);
    ct_world_close(&world);
    check("a copy of itself, closed", ct_copy(&world, &world) == CT_NOT_OPEN && !world.is_open);
    check("a copy outlives", steps_of(&other) == 2 && ct_apply(&other, CT_RECEIVE, 1, 1, 0, 0).refusal == CT_DONE);
    ct_world_close(&other);
    check("opened once more", ct_world_open(&world, 1, 1, 1) == CT_DONE && steps_of(&world) == 0);
    ct_world_close(&world);
}

/* Member 2 of three coordinates the first round, gets all estimates and the acks of 1 and 2, and the nack of 3. */
static void standing(void) {
    ct_world world = {0};
    uint32_t serials[9];
    check("open", ct_world_open(&world, MEMBERS, CELLS, BOUND) == CT_DONE && stands_nowhere(&world, 0) && stands_nowhere(&world, 4));
    ct_standing it = ct_standing_of(&world, 2);
    check("at first", it.member == 2 && it.instance == 0 && it.phase == 0);
    check("submit", ct_apply(&world, CT_SUBMIT, 1, CT_SET, 0, 7).first == 1);
    for (uint8_t member = 1; member <= MEMBERS; member++) {
        check("receive", ct_apply(&world, CT_RECEIVE, member, member, 0, 0).refusal == CT_DONE);
        check("begin", ct_apply(&world, CT_BEGIN, member, 0, 0, 0).refusal == CT_DONE);
    }
    it = ct_standing_of(&world, 2);
    check("begun", it.instance == 1 && it.round == 0 && it.phase == CT_REST && it.heard == 0);
    for (uint8_t member = 1; member <= MEMBERS; member++) {
        check("enter", ct_apply(&world, CT_ENTER, member, 0, 0, 0).refusal == CT_DONE);
    }
    check("waiting for the proposal", ct_standing_of(&world, 1).phase == CT_WAIT && ct_standing_of(&world, 1).round == 1);
    for (size_t count = ct_waiting(&world, 2, serials, 9), i = 0; i < count; i++) {
        check("receive", ct_apply(&world, CT_RECEIVE, 2, serials[i], 0, 0).refusal == CT_DONE);
    }
    it = ct_standing_of(&world, 2);
    check("gathering", it.phase == CT_GATHER && it.round == 1 && it.ts == 0 && it.heard == 7 && it.heard_ts[2] == 0 && it.replied == 0);
    ct_effect proposed = ct_apply(&world, CT_CHOOSE, 2, 1, 0, 0);
    check("choose", proposed.refusal == CT_DONE && proposed.count == MEMBERS);
    check("suspect", ct_apply(&world, CT_SUSPECT, 3, 0, 0, 0).refusal == CT_DONE);
    for (uint8_t member = 1; member <= 2; member++) {
        check("receive", ct_apply(&world, CT_RECEIVE, member, proposed.first + member - 1, 0, 0).refusal == CT_DONE);
        check("adopt", ct_apply(&world, CT_ADOPT, member, 0, 0, 0).refusal == CT_DONE);
    }
    for (size_t count = ct_waiting(&world, 2, serials, 9), i = 0; i < count; i++) {
        check("receive", ct_apply(&world, CT_RECEIVE, 2, serials[i], 0, 0).refusal == CT_DONE);
    }
    it = ct_standing_of(&world, 2);
    check("tallying", it.phase == CT_TALLY && it.ts == 1 && it.acked == 3 && it.replied == 7 && !it.has_crashed);
    check("crash", ct_apply(&world, CT_CRASH, 3, 0, 0, 0).refusal == CT_DONE);
    it = ct_standing_of(&world, 3);
    check("crashed", it.has_crashed && it.member == 3 && it.phase == CT_REST && it.round == 1 && it.ts == 0);
    ct_world_close(&world);
}

/* There is no turn. */
static bool is_none(ct_turn turn) {
    return turn.kind == 0 && turn.step.kind == 0 && turn.step.member == 0 && turn.step.a == 0 && turn.step.b == 0 && turn.step.c == 0;
}

static bool has_no_turn(ct_walk *walk, const ct_world *world) { return is_none(ct_walk_turn(walk, world)); }

/* Each option out of its range, where all others are usual. */
static void bad_options(void) {
    ct_walk walk = {0};
    ct_walk_options bad[17];
    size_t count = 0;
    for (; count < sizeof bad / sizeof *bad; count++) {
        bad[count] = ct_walk_usual(MEMBERS, UINT32_MAX);
    }
    bad[0].members = 0, bad[1].members = 17, bad[2].turns = 100001, bad[3].rate = 257, bad[4].cells = 1025, bad[5].submit = 1001;
    bad[6].crash = 4, bad[7].postpone = 1001, bad[8].lose = 1001, bad[9].repeat = 1001, bad[10].batch = 0, bad[11].batch = 1048561;
    bad[12].every = 100001, bad[13].scatter = 257, bad[14].lasting = 257, bad[15].crashes = 2, bad[16].cut = 1001;
    for (size_t i = 0; i < count; i++) {
        check("a bad option", ct_walk_open(&walk, &bad[i]) == CT_BAD_OPTIONS && !walk.is_open);
    }
    static const ct_walk_options most = {100000, UINT32_MAX, 1048560, 100000, 256, 1024, 1000, 1000, 1000, 1000, 256, 256, 1000, 16, 16, 7};
    check("the largest options", ct_walk_open(&walk, &most) == CT_DONE && walk.is_open);
    ct_walk_close(&walk);
}

static void walks(void) {
    static const ct_world never = {0};
    const ct_walk_options options = ct_walk_usual(MEMBERS, 7);
    ct_walk walk = {0}, other = {0};
    ct_world world = {0};
    bad_options();
    check("open", ct_world_open(&world, MEMBERS, options.cells, options.batch) == CT_DONE && has_no_turn(&walk, &world));
    check("open", ct_walk_open(&walk, &options) == CT_DONE && ct_walk_open(&other, &options) == CT_DONE);
    check("opened again", ct_walk_open(&walk, &options) == CT_ALREADY_OPEN && walk.is_open);
    check("a closed world makes no turn", has_no_turn(&walk, &never));
    for (int turns = 0; turns < 3008; turns++) {
        ct_turn turn = ct_walk_turn(&walk, &world), same = ct_walk_turn(&other, &world);
        check("the same turn", turn.kind == same.kind && turn.step.kind == same.step.kind && turn.step.a == same.step.a);
        check("a turn", turn.kind == (turn.step.kind != 0 ? CT_TURN_STEP : CT_TURN_REST));
        ct_apply(&world, turn.step.kind, turn.step.member, turn.step.a, turn.step.b, turn.step.c);
    }
    check("over", ct_walk_turn(&walk, &world).kind == CT_TURN_OVER && ct_walk_turn(&walk, &world).step.kind == 0);
    check("all delivered", ct_delivered(&world, 1, NULL, 0) == 8);
    ct_walk_close(&walk);
    ct_walk_close(&other);
    check("a closed walk", !walk.is_open && walk.at == NULL && has_no_turn(&walk, &world));
    ct_world_close(&world);
}

/* Each call on a closed shrinker, in this world. */
static void closed_shrinker(ct_shrink *shrink, const ct_world *world, const char *what) {
    check(what, !shrink->is_open && shrink->at == NULL && !ct_shrink_is_least(shrink) && ct_shrink_next(shrink) == CT_NOT_OPEN);
    check(what, is_none(ct_shrink_turn(shrink, world)) && ct_shrink_told(shrink, world, true) == CT_NOT_OPEN);
    ct_shrink_close(shrink);
    check(what, !shrink->is_open);
}

/* The trial's steps in a fresh world, until there member 2 has crashed; how many they are. */
static size_t tried(ct_shrink *shrink, ct_world *trial) {
    ct_turn turn;
    ct_world_close(trial);
    check("open", ct_world_open(trial, MEMBERS, CELLS, BOUND) == CT_DONE);
    while (!ct_standing_of(trial, 2).has_crashed && (turn = ct_shrink_turn(shrink, trial)).kind == CT_TURN_STEP) {
        check("allowed", ct_apply(trial, turn.step.kind, turn.step.member, turn.step.a, turn.step.b, turn.step.c).refusal == CT_DONE);
    }
    return steps_of(trial);
}

/* Of a submission, its receipt and a crash the crash is left. */
static void shrinkers(void) {
    static const ct_world never = {0};
    ct_shrink shrink = {0};
    ct_world world = {0}, trial = {0};
    check("open", ct_world_open(&world, MEMBERS, CELLS, BOUND) == CT_DONE && ct_shrink_open(&shrink, &never, true, 9) == CT_NOT_OPEN);
    closed_shrinker(&shrink, &world, "a shrinker that was never opened");
    closed_shrinker(&shrink, &never, "neither was opened");
    check("no step", ct_shrink_open(&shrink, &world, false, 9) == CT_DONE && ct_shrink_is_least(&shrink));
    check("no step", ct_shrink_next(&shrink) == CT_NO_TRIAL && ct_shrink_turn(&shrink, &world).kind == CT_TURN_OVER);
    ct_shrink_close(&shrink);
    check("submit", ct_apply(&world, CT_SUBMIT, 1, CT_SET, 0, 7).refusal == CT_DONE);
    check("receive", ct_apply(&world, CT_RECEIVE, 1, 1, 0, 0).refusal == CT_DONE);
    check("crash", ct_apply(&world, CT_CRASH, 2, 0, 0, 0).refusal == CT_DONE);
    check("no trials", ct_shrink_open(&shrink, &world, true, 0) == CT_DONE && ct_shrink_next(&shrink) == CT_NO_TRIAL);
    check("no trials", !ct_shrink_is_least(&shrink) && tried(&shrink, &trial) == 3);
    ct_shrink_close(&shrink);
    check("open", ct_shrink_open(&shrink, &world, true, 9) == CT_DONE && steps_of(&world) == 3 && !ct_shrink_is_least(&shrink));
    void *at = shrink.at;
    check("opened again", ct_shrink_open(&shrink, &world, true, 9) == CT_ALREADY_OPEN && shrink.is_open && shrink.at == at);
    check("opened again", ct_shrink_open(&shrink, &never, true, 9) == CT_ALREADY_OPEN && shrink.is_open && shrink.at == at);
    check("told without a trial", ct_shrink_told(&shrink, &world, true) == CT_NO_TRIAL);
    check("a closed world", is_none(ct_shrink_turn(&shrink, &never)) && ct_shrink_told(&shrink, &never, true) == CT_NOT_OPEN);
    for (int i = 0; i < 2; i++) {
        check("the trial, asked for again", ct_shrink_next(&shrink) == CT_DONE && tried(&shrink, &trial) == 1);
    }
    check("behind the last step", ct_shrink_turn(&shrink, &trial).kind == CT_TURN_OVER);
    check("over", ct_shrink_turn(&shrink, &trial).kind == CT_TURN_OVER && ct_shrink_turn(&shrink, &trial).step.kind == 0);
    check("a closed world", ct_shrink_told(&shrink, &never, true) == CT_NOT_OPEN);
    check("told", ct_shrink_told(&shrink, &trial, true) == CT_DONE && !ct_shrink_is_least(&shrink));
    check("told again", ct_shrink_told(&shrink, &trial, true) == CT_NO_TRIAL);
    check("the crash left out", ct_shrink_next(&shrink) == CT_DONE && tried(&shrink, &trial) == 0);
    check("told", ct_shrink_told(&shrink, &trial, false) == CT_DONE && ct_shrink_next(&shrink) == CT_DONE);
    check("and in the next pass", tried(&shrink, &trial) == 0 && ct_shrink_told(&shrink, &trial, false) == CT_DONE);
    check("no trial is left", ct_shrink_next(&shrink) == CT_NO_TRIAL && ct_shrink_is_least(&shrink));
    check("told without a trial", ct_shrink_told(&shrink, &trial, true) == CT_NO_TRIAL);
    check("the least run", tried(&shrink, &trial) == 1 && ct_standing_of(&trial, 2).has_crashed && steps_of(&world) == 3);
    ct_world_close(&world);
    ct_shrink_close(&shrink);
    closed_shrinker(&shrink, &trial, "a shrinker that was closed");
    ct_world_close(&trial);
}

static void lengths(void) {
    ct_world world = {0};
    uint32_t serials[4] = {9, 9, 9, 9};
    ct_message messages[3];
    ct_step steps[4];
    uint64_t table[17];
    memset(messages, 0x55, sizeof messages);
    memset(table, 0x55, sizeof table);
    memset(steps, 0x55, sizeof steps);
    const uint64_t untouched = table[16];
    check("open", ct_world_open(&world, 1, 1, BOUND) == CT_DONE);
    for (int i = 0; i < 3; i++) {
        check("submit", ct_apply(&world, CT_SUBMIT, 1, CT_ADD, 0, 5).first == (uint32_t)i + 1);
    }
    check("count", ct_waiting(&world, 1, serials, 0) == 3 && serials[0] == 9);
    check("fewer", ct_waiting(&world, 1, serials, 2) == 3 && serials[0] == 1 && serials[1] == 2 && serials[2] == 9);
    check("more", ct_waiting(&world, 1, serials, 4) == 3 && serials[2] == 3 && serials[3] == 9);
    check("no line", ct_waiting(&world, 2, serials, 4) == CT_NONE && ct_waiting(&world, 0, serials, 4) == CT_NONE && serials[0] == 1);
    for (uint32_t serial = 1; serial <= 3; serial++) {
        check("receive", ct_apply(&world, CT_RECEIVE, 1, serial, 0, 0).refusal == CT_DONE);
    }
    check("received", ct_received(&world, 1, messages, 2) == 3 && messages[0].number == 1 && messages[1].number == 2);
    check("received, behind the room", messages[2].origin == 0x55 && messages[1].value == 5 && messages[1].command == CT_ADD);
    check("steps from a place", ct_steps(&world, 4, steps, 1) == 2 && steps[0].kind == CT_RECEIVE && steps[0].a == 2);
    check("steps, behind the room", steps[1].kind == 0x55);
    check("steps behind the end", ct_steps(&world, 6, steps, 4) == 0 && ct_steps(&world, SIZE_MAX, steps, 4) == 0 && steps[1].kind == 0x55);
    check("table", ct_table(&world, 1, table, 16) == 16 && table[0] == 0 && table[16] == untouched);
    check("no value", ct_value(&world, 1, messages, 3) == CT_NONE && ct_value(&world, 99, messages, 3) == CT_NONE);
    check("no decision", ct_decided(&world, 1, 0, messages, 3) == CT_NONE && ct_decided(&world, 1, 1, messages, 3) == CT_NONE);
    check("no envelope", ct_envelope(&world, 0).kind == 0 && ct_envelope(&world, 4).kind == 0 && ct_envelope(&world, 3).kind == CT_DATA);
    check("nothing delivered", ct_delivered(&world, 1, messages, 0) == 0);
    ct_world_close(&world);
}

/* Null where the length is 0, and what is constant: a world that was never opened isn't written to. */
static void nothing(void) {
    static const ct_world never = {0};
    static const ct_session silent = {0};
    ct_world world = {0};
    ct_session session = {0};
    check("a constant", ct_enabled(&never, CT_CRASH, 1, 0, 0, 0) == CT_NOT_OPEN && ct_next(&never, 1).kind == 0);
    check("a constant", stands_nowhere(&never, 1));
    check("a constant", steps_of(&never) == CT_NONE && ct_waiting(&never, 1, NULL, 0) == CT_NONE && ct_envelope(&never, 1).kind == 0);
    check("a constant", ct_value(&never, 1, NULL, 0) == CT_NONE && ct_received(&never, 1, NULL, 0) == CT_NONE);
    check("a constant", ct_decided(&never, 1, 1, NULL, 0) == CT_NONE && ct_delivered(&never, 1, NULL, 0) == CT_NONE);
    check("a constant", ct_table(&never, 1, NULL, 0) == CT_NONE && ct_copy(&never, &world) == CT_NOT_OPEN);
    check("a constant", ct_answers_length(&silent) == CT_NONE && ct_answers(&silent, NULL, 0) == CT_NONE);
    check("open", ct_world_open(&world, 1, 1, BOUND) == CT_DONE && ct_apply(&world, CT_SUBMIT, 1, CT_SET, 0, 7).first == 1);
    check("no room", steps_of(&world) == 1 && ct_waiting(&world, 1, NULL, 0) == 1 && ct_table(&world, 1, NULL, 0) == 16);
    check("no room", ct_apply(&world, CT_RECEIVE, 1, 1, 0, 0).refusal == CT_DONE && ct_received(&world, 1, NULL, 0) == 1);
    check("no room", ct_delivered(&world, 1, NULL, 0) == 0 && ct_decided(&world, 1, 1, NULL, 0) == CT_NONE);
    ct_world_close(&world);
    check("no bytes", ct_session_open(&session) == CT_DONE && ct_tell(&session, NULL, 0) == CT_DONE);
    check("no bytes", ct_answers(&session, NULL, 0) == 0 && ct_tell(&session, (const uint8_t *)"\n", 1) == CT_DONE);
    check("no room", ct_answers(&session, NULL, 0) == 3 && ct_answers_length(&session) == 3);
    ct_session_close(&session);
}

static const uint8_t *bytes(const char *text) { return (const uint8_t *)text; }

/* The record of this version and these steps. */
static ct_opened open_record(ct_world *world, const char *steps, int version) {
    char text[160];
    const char *batch = version == 3 ? "\"batch\":9," : "";
    int length = snprintf(text, sizeof text, "{%s\"cells\":4,\"n\":2,\"steps\":[%s],\"version\":%d}", batch, steps, version);
    return ct_open_record(world, bytes(text), (size_t)length);
}

static void records(void) {
    static const struct {
        const char *steps;
        int version;
        uint32_t refusal;
        size_t at;
    } bad[] = {
        {"[\"crash\",1],[\"settle\",1]", 3, CT_NO_RECORD, 2},    {"[\"crash\",1],[\"begin\",1]", 3, CT_CRASHED, 2},
        {"[\"crash\",3]", 3, CT_NO_SUCH_MEMBER, 1},            {"[\"crash\",1],[\"lose\",2,1]", 1, CT_NO_RECORD, 2},
        {"[\"crash\",1]]", 3, CT_NO_RECORD, 0},                {"", 4, CT_NO_RECORD, 0},
        {"[\"submit\",1,[\"set\",16,7]]", 3, CT_BAD_COMMAND, 1}, {"[\"crash\",256]", 3, CT_NO_RECORD, 1},
    };
    ct_world world = {0};
    for (size_t i = 0; i < sizeof bad / sizeof *bad; i++) {
        ct_opened none = open_record(&world, bad[i].steps, bad[i].version);
        check("a bad record", none.refusal == bad[i].refusal && none.at == bad[i].at && !world.is_open);
        check("no setup", none.bound == 0 && none.cells == 0 && none.members == 0);
    }
    check("no text", ct_open_record(&world, NULL, 0).refusal == CT_NO_RECORD && !world.is_open);
    ct_opened opened = open_record(&world, "[\"submit\",1,[\"set\",0,7]],[\"receive\",2,2]", 3);
    check("a record", opened.refusal == CT_DONE && opened.at == 0 && steps_of(&world) == 2);
    check("its setup", opened.bound == 9 && opened.cells == 4 && opened.members == 2);
    check("its state", ct_received(&world, 2, NULL, 0) == 1 && ct_apply(&world, CT_RECEIVE, 1, 1, 0, 0).refusal == CT_DONE);
    check("a record into an open one", open_record(&world, "", 3).refusal == CT_ALREADY_OPEN && steps_of(&world) == 3);
    ct_world_close(&world);
    check("an older record", open_record(&world, "", 1).bound == BOUND && steps_of(&world) == 0);
    ct_world_close(&world);
}

static void sessions(void) {
    ct_session session = {0}, other = {0};
    uint8_t room[16];
    memset(room, 'x', sizeof room);
    check("a closed session", ct_tell(&session, bytes("members 3\n"), 10) == CT_NOT_OPEN && ct_answers_length(&session) == CT_NONE);
    check("a closed session", ct_answers(&session, room, 16) == CT_NONE && room[0] == 'x');
    check("a closed session", ct_record(&session) == CT_NOT_OPEN && ct_diagram(&session) == CT_NOT_OPEN);
    ct_session_close(&session);
    check("open", ct_session_open(&session) == CT_DONE && ct_session_open(&session) == CT_ALREADY_OPEN);
    check("nothing waits", ct_answers_length(&session) == 0 && ct_answers(&session, room, 16) == 0 && room[0] == 'x');
    check("no world", ct_record(&session) == CT_NO_WORLD && ct_diagram(&session) == CT_NO_WORLD);
    check("no bytes", ct_tell(&session, bytes(""), 0) == CT_DONE && ct_answers_length(&session) == 0);
    check("a part of a line", ct_tell(&session, bytes("members"), 7) == CT_DONE && ct_answers_length(&session) == 0);
    check("its end", ct_tell(&session, bytes(" 3\n1 sub"), 8) == CT_DONE && ct_answers_length(&session) == 3);
    check("no world", ct_record(&session) == CT_NO_WORLD);
    check("more lines", ct_tell(&session, bytes("mit set 0 7\n2 begin\n"), 20) == CT_DONE);
    check("a part of the answers", ct_answers(&session, room, 6) == ct_answers_length(&session) && memcmp(room, "ok 1-3x", 7) == 0);
    check("a question", ct_tell(&session, bytes("next 2\n"), 7) == CT_DONE && ct_answers(&session, room, 16) == 31);
    check("its answer", memcmp(room, "next 2 receive d", 16) == 0);
    check("the record", ct_record(&session) == CT_DONE && ct_answers_length(&session) == 81 && ct_answers(&session, room, 8) == 81);
    check("the record", memcmp(room, "{\"batch\"", 8) == 0);
    check("the diagram", ct_diagram(&session) == CT_DONE && ct_answers(&session, room, 4) > 1000 && memcmp(room, "<svg", 4) == 0);
    check("other sessions know nothing", ct_session_open(&other) == CT_DONE && ct_record(&other) == CT_NO_WORLD);
    ct_session_close(&session);
    check("closed", !session.is_open && ct_tell(&session, bytes("\n"), 1) == CT_NOT_OPEN);
    ct_session_close(&other);
}

/* A world under turns of all members; how many messages member 1 delivered. */
static void *rehearse(void *into) {
    ct_world world = {0};
    ct_world_open(&world, MEMBERS, 1024, BOUND);
    for (int round = 0; round < ROUNDS; round++) {
        ct_apply(&world, CT_SUBMIT, (uint8_t)(round % MEMBERS + 1), CT_ADD, 0, 1);
        for (uint8_t member = 1; member <= MEMBERS; member++) {
            ct_step step = ct_next(&world, member);
            uint32_t serial;
            if (step.kind != 0 && step.kind != CT_SUSPECT) {
                ct_apply(&world, step.kind, member, step.a, step.b, step.c);
            }
            for (int i = 0; i < 4 && ct_waiting(&world, member, &serial, 1) > 0; i++) {
                ct_apply(&world, CT_RECEIVE, member, serial, 0, 0);
            }
        }
    }
    ct_message none;
    *(size_t *)into = ct_delivered(&world, 1, &none, 0);
    ct_world_close(&world);
    return NULL;
}

static void threads(void) {
    pthread_t thread[2];
    size_t delivered[3] = {0};
    for (int i = 0; i < 2; i++) {
        check("a thread", pthread_create(&thread[i], NULL, rehearse, &delivered[i]) == 0);
    }
    for (int i = 0; i < 2; i++) {
        pthread_join(thread[i], NULL);
    }
    rehearse(&delivered[2]);
    check("two threads with a world each", delivered[0] > 100 && delivered[0] == delivered[1] && delivered[0] == delivered[2]);
}

int main(void) {
    check("the version", ct_version() == CT_VERSION_NUMBER);
    setups();
    order();
    standing();
    walks();
    shrinkers();
    lengths();
    nothing();
    records();
    sessions();
    threads();
    printf("%d passed, %d failed\n", passed, failed);
    return failed != 0;
}
