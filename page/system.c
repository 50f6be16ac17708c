/* What the program ct_tool asks of an operating system, in its module: words, variables, files and streams, and a clock, which whoever runs
   the module has for it (bindings/node/system.js); of all else there is none, and each call answers so, with the number that Linux would
   give. No proof covers it. Each function is declared as the program declares it, since WebAssembly calls none of another type. */
#include "heap.h"

#define NO_CALL 38 /* ENOSYS */
#define NO_SEEK 29 /* ESPIPE */
#define NO_THREAD 11 /* EAGAIN */
#define BY_DESCRIPTOR 0x1000 /* AT_EMPTY_PATH */
#define NANOS 1000000000.0
#define MILLIS 1000.0

typedef long long i64;

#define FROM_HOST(name) __attribute__((import_module("system"), import_name(name)))

/* The host's part. A word's bytes, or a variable's: how many they are, or -1 without such a one, or -2 without room. Of files and streams:
   what Linux would answer, and a fault by its number below 0; what is known of a file is its mode, its number, its size and its device, of
   the one of a name where the descriptor is -1. Nanoseconds since some moment; a wait; and the end, which it does not return from. */
FROM_HOST("word") i64 host_word(u64 number, char *place, u64 room);
FROM_HOST("variable") i64 host_variable(const char *name, u64 length, char *place, u64 room);
FROM_HOST("open") i64 host_open(const char *name, u64 length, int flags);
FROM_HOST("read") i64 host_read(int file, char *place, u64 room);
FROM_HOST("write") i64 host_write(int file, const char *place, u64 size);
FROM_HOST("close") i64 host_close(int file);
FROM_HOST("stat") i64 host_stat(int file, const char *name, u64 length, u64 *known);
FROM_HOST("is_terminal") int host_is_terminal(int file);
FROM_HOST("clock") double host_clock(void);
FROM_HOST("sleep") void host_sleep(double millis);
FROM_HOST("end") _Noreturn void host_end(int status);

struct time {
    i64 seconds;
    i64 nanos;
};

/* Linux's struct statx. */
struct known {
    unsigned mask, block, attributes[2], links, user, group;
    unsigned short mode, gap;
    u64 number, size, rest[10];
    unsigned made_of[2], device[2];
    u64 more[14];
};

static int fault;

/* The answer -1, for this reason. */
static int refused(int why) {
    fault = why;
    return -1;
}

/* What the host answered. */
static i64 answered(i64 answer) { return answer < 0 ? refused((int)-answer) : answer; }

static u64 length_of(const char *text) {
    u64 length = 0;
    while (text[length])
        length++;
    return length;
}

int rattle_errno(void) { return fault; }

void rattle_set_errno(int why) { fault = why; }

i64 rattle_arg(u64 number, char *place, u64 room) { return host_word(number, place, room); }

i64 rattle_env(const char *name, char *place, u64 room) { return host_variable(name, length_of(name), place, room); }

i64 rattle_env_at(u64 number, char *place, u64 room) {
    (void)number, (void)place, (void)room;
    return -1;
}

int open(const char *path, int flags, ...) { return (int)answered(host_open(path, length_of(path), flags)); }

i64 read(int file, char *place, u64 room) { return answered(host_read(file, place, room)); }

i64 write(int file, const char *place, u64 size) { return answered(host_write(file, place, size)); }

i64 __write(int file, const char *place, u64 size) { return write(file, place, size); }

int close(int file) { return (int)answered(host_close(file)); }

int isatty(int file) { return host_is_terminal(file); }

i64 lseek(int file, i64 offset, int from) {
    (void)file, (void)offset, (void)from;
    return refused(NO_SEEK);
}

int statx(int folder, const char *path, int flags, unsigned mask, struct known *known) {
    u64 found[4]; /* mode, number, size, device */
    if (answered(host_stat(flags & BY_DESCRIPTOR ? folder : -1, path, length_of(path), found)) < 0)
        return -1;
    *known = (struct known){.mask = mask, .mode = (unsigned short)found[0], .number = found[1], .size = found[2]};
    known->device[0] = (unsigned)(found[3] >> 32), known->device[1] = (unsigned)found[3];
    return 0;
}

int clock_gettime(int clock, struct time *time) {
    double now = host_clock();
    (void)clock;
    time->seconds = (i64)(now / NANOS);
    time->nanos = (i64)(now - (double)time->seconds * NANOS);
    return 0;
}

int nanosleep(const struct time *asked, struct time *left) {
    (void)left;
    host_sleep((double)asked->seconds * MILLIS + (double)asked->nanos * MILLIS / NANOS);
    return 0;
}

_Noreturn void _exit(int status) { host_end(status); }

_Noreturn void abort(void) { __builtin_trap(); }

void *malloc(u64 n) { return heap_take(n); }

void free(void *place) {
    if (place)
        heap_give(place);
}

/* One processor, and no second thread. */
int pthread_create(u64 *thread, const void *how, void *(*begin)(void *), void *with) {
    (void)thread, (void)how, (void)begin, (void)with;
    return NO_THREAD;
}

int pthread_attr_init(void *how) {
    (void)how;
    return 0;
}

int pthread_attr_destroy(void *how) {
    (void)how;
    return 0;
}

int pthread_attr_setguardsize(void *how, u64 size) {
    (void)how, (void)size;
    return 0;
}

int pthread_attr_setstacksize(void *how, u64 size) {
    (void)how, (void)size;
    return 0;
}

int pthread_detach(u64 thread) {
    (void)thread;
    return NO_CALL;
}

int pthread_join(u64 thread, void **answer) {
    (void)thread, (void)answer;
    return NO_CALL;
}

u64 pthread_self(void) { return 1; }

int sched_yield(void) { return 0; }

/* A call by its number: how threads wait for one another. */
i64 syscall(i64 number, void *place, i64 what, i64 value, void *time, ...) {
    (void)number, (void)place, (void)what, (void)value, (void)time;
    return refused(NO_CALL);
}

int sched_getaffinity(int process, u64 size, void *processors) {
    (void)process, (void)size, (void)processors;
    return refused(NO_CALL);
}

i64 sysconf(int name) {
    (void)name;
    return refused(NO_CALL);
}

/* No signal comes. */
void *__sysv_signal(int signal, void *taken) {
    (void)signal, (void)taken;
    return 0;
}

/* What the processor can do, in bits: all. The program begins only where that is what it was compiled for; here it is compiled anew. */
const unsigned *__x86_get_cpuid_feature_leaf(unsigned leaf) {
    static const unsigned all[8] = {~0u, ~0u, ~0u, ~0u, ~0u, ~0u, ~0u, ~0u};
    (void)leaf;
    return all;
}
