/* A rehearsal of Chandra and Toueg's atomic broadcast, in process: worlds, whose steps are typed calls, walks, which draw steps at random
   from a seed, shrinkers, which make a run smaller trial by trial, and sessions, which are told lines of schedules. README.md of this
   folder says what of it is proved and how to link.

   Worlds, walks, shrinkers and sessions are structs of the caller's. Each is zeros at first (`ct_world w = {0};`) and zeros again once it
   is closed. The library keeps what it allocated in them: never copy one, never write to one, close each that was opened.

   Threads: at most one call at a time on a world, a walk, a shrinker or a session. Between calls it may pass to another thread, where the
   one call happens before the other (behind a lock, a join or a queue). Different ones may be used on different threads at the same time.
   No call waits, locks, or uses a signal or a static variable. Don't call the library in a signal handler, or in the child of a fork of a
   process with threads.

   Pointers: none may be null, but that to a room or to bytes whose length is 0; gcc and clang warn of a null that they see. Two pointers
   that are passed to one call must not overlap; `ct_copy` refuses a world that is copied into itself.

   const: such a call leaves the struct as it was, and writes to one that is open while it is under way. So it is one call at a time, too.

   Room: a call with a `room` and a length, counted in elements, writes the first elements of its answer, as many as there is room
   for, and nothing behind them; it answers how many elements there are in all, or CT_NONE, and then writes nothing. With length 0 it
   only counts. A length is below 2^63 bytes.

   Refusals: a call that is refused changes nothing, unless it says so. Memory comes from malloc, realloc and free of the program. */
#ifndef CT_H
#define CT_H

#include <stdbool.h>
#include <stddef.h>
#include <stdint.h>

#if defined(__GNUC__)
#define CT_NONNULL(...) __attribute__((nonnull(__VA_ARGS__)))
#else
#define CT_NONNULL(...)
#endif

/* The version of this header and of the packages beside it. */
#define CT_VERSION "0.1.0"
#define CT_VERSION_NUMBER 100 /* 10,000 times its first number, 100 times its second, and its third */

#ifdef __cplusplus
extern "C" {
#endif

/* The version of the library that is linked, as a number: CT_VERSION_NUMBER where it is this header's. */
uint32_t ct_version(void);

/* What calls answer. 1 to 24 are why a step is refused: 1 to 22 its cause, the first that applies, in the order of testing, where
   CT_NOT_SENT and CT_STILL_WAITING are tested just before the limits. */
enum {
    CT_DONE = 0,
    CT_NO_SUCH_MEMBER = 1,    /* the member is none of the group's */
    CT_CRASHED = 2,           /* the member has crashed */
    CT_NOT_WAITING = 3,       /* the serial is not in the member's waiting line */
    CT_BUSY = 4,              /* an instance is open */
    CT_NOTHING = 5,           /* all that was received is delivered */
    CT_IDLE = 6,              /* no instance is open */
    CT_WRONG_PHASE = 7,       /* the phase of the round is another than the step's */
    CT_DECIDED = 8,           /* the member has the decision of the open instance */
    CT_TOO_FEW = 9,           /* fewer than a majority were heard, or replied */
    CT_NOT_LARGEST = 10,      /* that member was not heard, or another that was heard has a larger timestamp */
    CT_NO_PROPOSAL = 11,      /* the round's proposal was not received */
    CT_HAS_PROPOSAL = 12,     /* the round's proposal was received */
    CT_UNDECIDED = 13,        /* no decision for the open instance or, for CT_FOLLOW, for the one after the last */
    CT_BAD_COMMAND = 14,      /* a register of the command is 16 or more */
    CT_NOT_SENT = 15,         /* the serial was never sent to the member */
    CT_STILL_WAITING = 16,    /* the serial is in the member's waiting line */
    CT_FULL_SUBMISSIONS = 17, /* the member submitted 65,535 messages */
    CT_FULL_INSTANCES = 18,   /* the member began 1,024 instances */
    CT_FULL_ROUNDS = 19,      /* the instance has 10,000 rounds */
    CT_FULL_ENVELOPES = 20,   /* more than 1,000,000 envelopes would be sent */
    CT_FULL_CELLS = 21,       /* as many batches were posted as the world has cells */
    CT_FULL_STEPS = 22,       /* the record has 1,000,000 steps */
    CT_OUT_OF_MEMORY = 23,    /* malloc or realloc refused */
    CT_BOARD = 24,            /* the board of batches refused one; the world's own board doesn't */
    CT_NOT_OPEN = 25,         /* the world, the walk, the shrinker or the session is closed */
    CT_ALREADY_OPEN = 26,     /* it is open: close it first */
    CT_BAD_STEP = 27,         /* no step has these numbers: see ct_step */
    CT_BAD_SETUP = 28,        /* not 1 to 16 members, more than 1,024 cells, or a bound that is not 1 to 1,048,560 */
    CT_NO_WORLD = 29,         /* the session was told no step yet, so there is no group to speak of */
    CT_TOO_LONG = 30,         /* the run has more steps than a diagram shows */
    CT_NO_RECORD = 31,        /* the text is no record */
    CT_BAD_OPTIONS = 32,      /* an option of a walk is out of its range: see ct_walk_options */
    CT_NO_TRIAL = 33          /* no trial is left or, for ct_shrink_told, none was asked for */
};

/* The name of what a call answers, as records and schedules have it: "TooFew", "Full(Cells)"; "?" of another number. */
static inline const char *
ct_refusal_name(uint32_t refusal) {
    static const char *const names[] = {
        "Done", "NoSuchMember", "Crashed", "NotWaiting", "Busy", "Nothing", "Idle", "WrongPhase", "Decided", "TooFew", "NotLargest",
        "NoProposal", "HasProposal", "Undecided", "BadCommand", "NotSent", "StillWaiting", "Full(Submissions)", "Full(Instances)",
        "Full(Rounds)", "Full(Envelopes)", "Full(Cells)", "Full(Steps)", "OutOfMemory", "Board", "NotOpen", "AlreadyOpen", "BadStep",
        "BadSetup", "NoWorld", "TooLong", "NoRecord", "BadOptions", "NoTrial",
    };
    return refusal < sizeof names / sizeof *names ? names[refusal] : "?";
}

/* In place of a count: the world or session is closed, the member is none of the group's, or there is no such list. */
#define CT_NONE SIZE_MAX

/* ---- worlds */

/* A group of members, what is on its way between them, what each received, decided and delivered, and the record of the steps so
   far. Whatever is asked of it, the record is a run of the algorithm that ends in this state, and the state is safe: two decisions of
   an instance are equal, and of the sequences that two members delivered one begins the other. */
typedef struct {
    void *at;
    bool is_open;
} ct_world;

/* The kinds of steps, in the order of docs/steps.schema.json. Members are counted from 1, as are serials: the places of envelopes
   among all that were sent. `a`, `b` and `c` are 0 where nothing is said of them; numbers that are no step's are CT_BAD_STEP. */
enum {
    CT_SUBMIT = 1,    /* broadcasts a message with the command `a`, `b`, `c`: CT_SET, CT_ADD or CT_COPY, its register, and the rest */
    CT_RECEIVE = 2,   /* receives the envelope of serial `a` */
    CT_BEGIN = 3,     /* opens the next instance */
    CT_ENTER = 4,     /* enters the next round */
    CT_CHOOSE = 5,    /* the coordinator proposes the estimate of member `a` */
    CT_ADOPT = 6,     /* takes the coordinator's proposal over */
    CT_SUSPECT = 7,   /* takes the coordinator for crashed */
    CT_CONCLUDE = 8,  /* the coordinator ends its round */
    CT_DELIVER = 9,   /* delivers the decision of the open instance */
    CT_FOLLOW = 10,   /* begins the next instance, delivers its decision and closes it */
    CT_CRASH = 11,    /* stops for good */
    CT_POSTPONE = 12, /* serial `a` moves to the end of the waiting line */
    CT_LOSE = 13,     /* serial `a` leaves the waiting line */
    CT_REPEAT = 14    /* serial `a`, which was received or lost, joins the end of the waiting line again */
};

/* The kinds of commands, over 16 registers of 64 bits, numbered from 0. */
enum {
    CT_SET = 1, /* register `b` gets the value `c` */
    CT_ADD = 2, /* register `b` grows by `c`, up to 2^64 - 1 */
    CT_COPY = 3 /* register `c` gets the value of register `b` */
};

/* A step, by its numbers. */
typedef struct {
    uint64_t c;
    uint32_t a;
    uint8_t b;
    uint8_t kind; /* CT_SUBMIT to CT_REPEAT; 0: no step */
    uint8_t member;
} ct_step;

/* What a step came to. */
typedef struct {
    uint32_t refusal; /* CT_DONE, or why it was refused */
    uint32_t first;   /* the serial of the first envelope that it sent; 0 where it sent none */
    uint32_t count;   /* how many it sent: the serials `first` to `first + count - 1` */
} ct_effect;

/* A message: the number-th command, counted from 1, that the member `origin` broadcast. */
typedef struct {
    uint64_t value;   /* the value, the amount, or the second register */
    uint32_t number;
    uint8_t origin;
    uint8_t command;  /* CT_SET, CT_ADD or CT_COPY; 0: no message */
    uint8_t reg;      /* the register */
} ct_message;

/* The kinds of what envelopes carry. */
enum {
    CT_DATA = 1, /* a message */
    CT_EST = 2,  /* the estimate of `from` at the beginning of a round; ts is the round in which it took that over */
    CT_PROP = 3, /* the proposal of the round's coordinator */
    CT_ACK = 4,  /* `from` took the proposal over */
    CT_NACK = 5, /* `from` took the coordinator for crashed */
    CT_DEC = 6   /* the instance's decision, as the round's coordinator made it */
};

/* What an envelope carries, and to whom; fields that its kind lacks are 0. */
typedef struct {
    ct_message message;
    uint32_t instance;
    uint32_t round;
    uint32_t ts;
    uint8_t kind; /* CT_DATA to CT_DEC; 0: no envelope */
    uint8_t to;
    uint8_t from;
} ct_letter;

/* The phases of a round. */
enum {
    CT_REST = 1,   /* no round is running */
    CT_GATHER = 2, /* the coordinator gathers estimates */
    CT_WAIT = 3,   /* the coordinator's proposal is awaited */
    CT_TALLY = 4   /* the coordinator counts replies */
};

/* Where a member stands; but for `instance`, `member` and `has_crashed` 0 where no instance is open. In a set of members member p is the
   bit 1 << (p - 1). */
typedef struct {
    uint32_t instance;     /* the last one that it began; 0 before the first */
    uint32_t round;        /* 0 before the first */
    uint32_t ts;           /* the round in which it took its estimate over; 0: the estimate is its own */
    uint32_t heard_ts[16]; /* at p - 1 the ts of the estimate that it got of member p for the round; 0 where it got none */
    uint16_t heard;        /* the members whose estimates it got for the round */
    uint16_t acked;        /* those whose acks it got for the round */
    uint16_t replied;      /* those whose acks or nacks it got for the round */
    uint8_t member;        /* 0: no member, and zeros */
    uint8_t phase;         /* CT_REST to CT_TALLY */
    bool has_crashed;
} ct_standing;

/* What opening a world from a record came to. */
typedef struct {
    size_t at;        /* the step, counted from 1, that is none or is refused; 0 where it is no step's fault */
    uint32_t refusal; /* CT_DONE, or why no world was opened */
    uint32_t bound;   /* the bound, the cells and the members of the world, as in ct_world_open; zeros where none was opened */
    uint16_t cells;
    uint8_t members;
} ct_opened;

/* Opens a world without steps, for the members 1 to `members` (at most 16), with `cells` cells for posted batches (at most 1,024), in
   which a member proposes at most `bound` messages for an instance (1 to 1,048,560). CT_DONE, CT_BAD_SETUP, CT_ALREADY_OPEN or
   CT_OUT_OF_MEMORY. */
uint32_t ct_world_open(ct_world *world, uint8_t members, uint16_t cells, uint32_t bound) CT_NONNULL(1);

/* Opens a world with the setup and the steps of a record: JSON, as `ct replay` and `ct_tool` read it and ct_record writes it, of at most
   67,108,864 bytes. CT_DONE, CT_ALREADY_OPEN, CT_NO_RECORD, CT_OUT_OF_MEMORY, or 1 to 24, why a step is refused. Takes as long as
   replaying the record. */
ct_opened ct_open_record(ct_world *world, const uint8_t *text, size_t length) CT_NONNULL(1);

/* Closes it, if it is open. */
void ct_world_close(ct_world *world) CT_NONNULL(1);

/* Makes `into`, which is closed, a world of its own with the same setup and record as `from`. CT_DONE, CT_NOT_OPEN where `from` is
   closed, CT_ALREADY_OPEN where `into` is open, as where both are one world, CT_OUT_OF_MEMORY or CT_BOARD. Takes as long as replaying the
   record. */
uint32_t ct_copy(const ct_world *from, ct_world *into) CT_NONNULL(1, 2);

/* Does the step, or refuses it: refusal is CT_DONE, CT_NOT_OPEN, CT_BAD_STEP, or 1 to 24. Takes time by what the step touches. */
ct_effect ct_apply(ct_world *world, uint8_t kind, uint8_t member, uint32_t a, uint8_t b, uint64_t c) CT_NONNULL(1);

/* Why the step would be refused now, want of memory apart: CT_DONE where it is allowed, CT_NOT_OPEN, CT_BAD_STEP, or 1 to 22. */
uint32_t ct_enabled(const ct_world *world, uint8_t kind, uint8_t member, uint32_t a, uint8_t b, uint64_t c) CT_NONNULL(1);

/* What a driver does next at the member: the first allowed step of CT_DELIVER, CT_FOLLOW, CT_BEGIN, CT_CHOOSE (of the least member
   that was heard with the largest ts), CT_ADOPT, CT_CONCLUDE, CT_ENTER and CT_SUSPECT. Its kind is 0 where there is none. */
ct_step ct_next(const ct_world *world, uint8_t member) CT_NONNULL(1);

/* Where the member stands; its member is 0 where it is none of the group's, or the world is closed. */
ct_standing ct_standing_of(const ct_world *world, uint8_t member) CT_NONNULL(1);

/* The steps of the record from the place `from` on, counted from 0; answers how many there are from there on. */
size_t ct_steps(const ct_world *world, size_t from, ct_step *room, size_t length) CT_NONNULL(1);

/* The serials that wait at the member, in the order of its line. */
size_t ct_waiting(const ct_world *world, uint8_t member, uint32_t *room, size_t length) CT_NONNULL(1);

/* The envelope of a serial; its kind is 0 where that was not sent, or the world is closed. */
ct_letter ct_envelope(const ct_world *world, uint32_t serial) CT_NONNULL(1);

/* The value that the envelope of a serial carries, in the order of messages; CT_NONE where that was not sent, or carries none. */
size_t ct_value(const ct_world *world, uint32_t serial, ct_message *room, size_t length) CT_NONNULL(1);

/* The messages that the member received, in order of first receipt. */
size_t ct_received(const ct_world *world, uint8_t member, ct_message *room, size_t length) CT_NONNULL(1);

/* The decision that the member got for an instance, counted from 1, in the order of messages; CT_NONE where it got none. */
size_t ct_decided(const ct_world *world, uint8_t member, uint32_t instance, ct_message *room, size_t length) CT_NONNULL(1);

/* The messages that the member delivered, in order. */
size_t ct_delivered(const ct_world *world, uint8_t member, ct_message *room, size_t length) CT_NONNULL(1);

/* The values of the member's 16 registers, after the commands of what it delivered. */
size_t ct_table(const ct_world *world, uint8_t member, uint64_t *room, size_t length) CT_NONNULL(1);

/* ---- walks */

/* A walk, the random run that `ct_tool walk` makes of options, asked turn by turn what it tries next. The caller applies the step in a
   world of its own, or doesn't; the turns behind go by the world as it stands then. Where each step is applied in a world that was opened
   with the members, the cells and the batch of the options, the record is the one that `ct_tool walk` prints. */
typedef struct {
    void *at;
    bool is_open;
} ct_walk;

/* The options of a walk, under their names in `ct_tool walk --help`, which says what each does. */
typedef struct {
    uint32_t turns;    /* up to 100,000, for each member */
    uint32_t seed;
    uint32_t batch;    /* 1 to 1,048,560 */
    uint32_t every;    /* up to 100,000 */
    uint16_t rate;     /* up to 256, as are scatter and lasting */
    uint16_t cells;    /* up to 1,024 */
    uint16_t submit;   /* up to 1,000, as are postpone, lose, repeat and cut */
    uint16_t postpone;
    uint16_t lose;
    uint16_t repeat;
    uint16_t scatter;
    uint16_t lasting;
    uint16_t cut;
    uint8_t members;   /* 1 to 16 */
    uint8_t crash;     /* a member, or 0 */
    uint8_t crashes;   /* fewer than half of the members */
} ct_walk_options;

/* The options of `ct_tool walk --members .. --seed ..`: all others are as where they aren't given. */
static inline ct_walk_options
ct_walk_usual(uint8_t members, uint32_t seed) {
    ct_walk_options usual = {1000, seed, 1048560, 0, 64, 64, 8, 0, 0, 0, 0, 0, 0, members, 0, 0};
    return usual;
}

/* What a turn comes to. */
enum {
    CT_TURN_STEP = 1, /* the step is tried: where the rules refuse it, the next turn is asked for all the same */
    CT_TURN_REST = 2, /* nothing is tried */
    CT_TURN_OVER = 3  /* all turns were made */
};

/* A turn. */
typedef struct {
    ct_step step; /* of CT_TURN_STEP; else its kind is 0 */
    uint8_t kind; /* CT_TURN_STEP to CT_TURN_OVER; 0: the walk, the shrinker or the world is closed */
} ct_turn;

/* Opens a walk before its first turn. CT_DONE, CT_ALREADY_OPEN, CT_BAD_OPTIONS or CT_OUT_OF_MEMORY. */
uint32_t ct_walk_open(ct_walk *walk, const ct_walk_options *options) CT_NONNULL(1, 2);

/* Closes it, if it is open. */
void ct_walk_close(ct_walk *walk) CT_NONNULL(1);

/* The walk's next turn, in this world as it stands; where one of both is closed the other stays as it is. It asks for no memory. */
ct_turn ct_walk_turn(ct_walk *walk, const ct_world *world) CT_NONNULL(1, 2);

/* ---- shrinkers */

/* A shrinker makes a run that passes a test of the caller's smaller, as `ct_tool shrink` does for a goal. Each of its trials is the run
   without some steps, in a fresh world of the caller's, with the members, the cells and the bound of the run's. Until the test is passed
   there, ct_shrink_turn is asked for the next step; then ct_shrink_told is told whether it was passed:

       while (ct_shrink_next(&shrink) == CT_DONE) {
           ct_world_open(&trial, members, cells, bound);
           while (!(passed = test(&trial)) && (turn = ct_shrink_turn(&shrink, &trial)).kind == CT_TURN_STEP) {
               ct_apply(&trial, turn.step.kind, turn.step.member, turn.step.a, turn.step.b, turn.step.c);
           }
           ct_shrink_told(&shrink, &trial, passed);
           ct_world_close(&trial);
       }

   In the end the turns in a fresh world, until they are over, make the smallest run. Where the first run passes the test at its end and not
   before, and the test is a goal, that is the run which `ct_tool shrink` leaves. */
typedef struct {
    void *at;
    bool is_open;
} ct_shrink;

/* Opens a shrinker of the run of this world's record, of which so many trials are made at most. names_members: the test names members, so
   that no trial gives them other numbers. CT_DONE, CT_ALREADY_OPEN, CT_NOT_OPEN where the world is closed, or CT_OUT_OF_MEMORY. Takes as
   long as replaying the record. */
uint32_t ct_shrink_open(ct_shrink *shrink, const ct_world *world, bool names_members, uint32_t trials) CT_NONNULL(1, 2);

/* Closes it, if it is open. */
void ct_shrink_close(ct_shrink *shrink) CT_NONNULL(1);

/* Asks for the next trial: CT_DONE, CT_NO_TRIAL where no step can be left out or so many trials were made, CT_NOT_OPEN or
   CT_OUT_OF_MEMORY. Until the trial was told it is asked for again, from its first step. */
uint32_t ct_shrink_next(ct_shrink *shrink) CT_NONNULL(1);

/* The next step of the trial, in this world as it stands: CT_TURN_STEP, or CT_TURN_OVER behind the last. In place of one that the rules
   refuse there, its member does what else it may, or it is left out: a step that is told is allowed. Where no trial is asked for, the steps
   are those of the smallest run so far. Where the shrinker or the world is closed the other stays as it is. It asks for no memory. */
ct_turn ct_shrink_turn(ct_shrink *shrink, const ct_world *world) CT_NONNULL(1, 2);

/* Tells what the trial came to: whether the test is passed in this world. Where it is, in fewer steps than the smallest run so far has, the
   world's run is that from here on. CT_DONE, CT_NO_TRIAL where none is asked for, CT_NOT_OPEN or CT_OUT_OF_MEMORY. */
uint32_t ct_shrink_told(ct_shrink *shrink, const ct_world *world, bool passed) CT_NONNULL(1, 2);

/* Whether no step of the smallest run can be left out, as far as the trials were told; false where it is closed. */
bool ct_shrink_is_least(const ct_shrink *shrink) CT_NONNULL(1);

/* ---- sessions */

/* A session of `ct_tool interact`: it is told the lines of a schedule (docs/SCHEDULES.md), and answers each. */
typedef struct {
    void *at;
    bool is_open;
} ct_session;

/* Opens a session that was told nothing. CT_DONE, CT_ALREADY_OPEN or CT_OUT_OF_MEMORY. */
uint32_t ct_session_open(ct_session *session) CT_NONNULL(1);

/* Closes it, if it is open. */
void ct_session_close(ct_session *session) CT_NONNULL(1);

/* Tells it bytes: lines, or parts of lines, each ended by a line feed. The answers to the lines that these bytes end wait to be
   copied, in place of what waited before. CT_DONE, CT_NOT_OPEN, or CT_OUT_OF_MEMORY or CT_BOARD: then the session is closed. */
uint32_t ct_tell(ct_session *session, const uint8_t *bytes, size_t length) CT_NONNULL(1);

/* How many bytes wait to be copied, or CT_NONE. */
size_t ct_answers_length(const ct_session *session) CT_NONNULL(1);

/* Copies the bytes that wait, and leaves them. */
size_t ct_answers(const ct_session *session, uint8_t *room, size_t length) CT_NONNULL(1);

/* The record of the steps so far, as JSON, waits to be copied in place of what waited before. CT_DONE, CT_NOT_OPEN, CT_NO_WORLD, or
   CT_OUT_OF_MEMORY: then nothing waits. What the session was told stays. */
uint32_t ct_record(ct_session *session) CT_NONNULL(1);

/* The diagram of the steps so far, as SVG, waits to be copied in place of what waited before. CT_DONE, CT_NOT_OPEN, CT_NO_WORLD,
   CT_TOO_LONG or CT_OUT_OF_MEMORY: but for CT_NOT_OPEN nothing waits then. What the session was told stays. */
uint32_t ct_diagram(ct_session *session) CT_NONNULL(1);

#ifdef __cplusplus
}
#endif

#endif
