/* The log of a member, for `ct_tool merge` (docs/LOGS.md): each function writes the line of one act, in one write(2), before it returns.
 *
 * They return 0, or -1 with errno set; the line may then stand in part, and the member has to stop before it sends anything. */
#ifndef CT_LOG_H
#define CT_LOG_H

#include <errno.h>
#include <fcntl.h>
#include <stdarg.h>
#include <stdio.h>
#include <string.h>
#include <unistd.h>

#define CT_LOG_LINE 1024 /* bytes of a line */
#define CT_LOG_SHOWN 8   /* messages of a value that are named; of more it is told how many, so that a line has room */

struct ct_log { int file, member; };
struct ct_message { int origin, number; };
struct ct_value { const struct ct_message *messages; size_t count; }; /* in order */

static inline int ct_log_write(const struct ct_log *log, const char *text, size_t length)
{
    ssize_t written = write(log->file, text, length);
    if (written >= 0 && (size_t)written != length) errno = ENOSPC;
    return written == (ssize_t)length ? 0 : -1;
}

/* Puts text behind the first *at bytes of a line; -1 where it has no room. */
__attribute__((format(printf, 3, 4))) static inline int ct_log_put(char *line, size_t *at, const char *form, ...)
{
    va_list words;
    va_start(words, form);
    int length = vsnprintf(line + *at, CT_LOG_LINE - *at, form, words);
    va_end(words);
    if (length < 0 || (size_t)length >= CT_LOG_LINE - *at) { errno = EOVERFLOW; return -1; }
    *at += (size_t)length;
    return 0;
}

/* The line of an act; value may be NULL and ts below 0, which state nothing. */
static inline int ct_log_act(const struct ct_log *log, const char *act, const struct ct_value *value, int ts)
{
    char line[CT_LOG_LINE];
    size_t at = 0, shown = !value ? 0 : value->count < CT_LOG_SHOWN ? value->count : CT_LOG_SHOWN;
    if (ct_log_put(line, &at, "%d %s%s", log->member, act, value ? " {" : "")) return -1;
    for (size_t i = 0; i < shown; i++)
        if (ct_log_put(line, &at, "%s%d.%d", i ? "," : "", value->messages[i].origin, value->messages[i].number)) return -1;
    if (value && value->count > shown && ct_log_put(line, &at, " and %zu more", value->count - shown)) return -1;
    if (value && ct_log_put(line, &at, "}")) return -1;
    if (ts >= 0 && ct_log_put(line, &at, " ts %d", ts)) return -1;
    return ct_log_put(line, &at, "\n") ? -1 : ct_log_write(log, line, at);
}

/* A new log of this member of so many; EEXIST where there is one, as a member that comes back has forgotten what it promised. */
static inline int ct_log_open(struct ct_log *log, const char *path, int member, int members, int batch)
{
    char head[CT_LOG_LINE];
    size_t at = 0;
    log->member = member;
    log->file = open(path, O_WRONLY | O_CREAT | O_EXCL | O_APPEND, 0644);
    if (log->file < 0 || ct_log_put(head, &at, "members %d\nbatch %d\n", members, batch)) return -1;
    return ct_log_write(log, head, at);
}

/* command: as in a schedule, "set 0 7". */
static inline int ct_log_submit(const struct ct_log *log, const char *command)
{
    char act[CT_LOG_LINE];
    size_t at = 0;
    return ct_log_put(act, &at, "submit %s", command) ? -1 : ct_log_act(log, act, NULL, -1);
}

/* sender: whose step sent it. command: NULL, or as in a schedule. */
static inline int ct_log_receive_data(const struct ct_log *log, struct ct_message it, int sender, const char *command)
{
    char act[CT_LOG_LINE];
    size_t at = 0;
    if (ct_log_put(act, &at, "receive data %d.%d from %d", it.origin, it.number, sender)) return -1;
    return command && ct_log_put(act, &at, " %s", command) ? -1 : ct_log_act(log, act, NULL, -1);
}

/* kind: "est" with a value and a ts, "prop" or "dec" with a value, "ack" or "nack". */
static inline int ct_log_receive(const struct ct_log *log, const char *kind, int instance, int round, int sender,
                                 const struct ct_value *value, int ts)
{
    char act[CT_LOG_LINE];
    size_t at = 0;
    if (ct_log_put(act, &at, "receive %s %d/%d from %d", kind, instance, round, sender)) return -1;
    return ct_log_act(log, act, value, ts);
}

static inline int ct_log_choose(const struct ct_log *log, int sender, const struct ct_value *estimate)
{
    char act[CT_LOG_LINE];
    size_t at = 0;
    return ct_log_put(act, &at, "choose %d", sender) ? -1 : ct_log_act(log, act, estimate, -1);
}

static inline int ct_log_begin(const struct ct_log *log, const struct ct_value *it) { return ct_log_act(log, "begin", it, -1); }
static inline int ct_log_enter(const struct ct_log *log, const struct ct_value *it, int ts) { return ct_log_act(log, "enter", it, ts); }
static inline int ct_log_adopt(const struct ct_log *log, const struct ct_value *it, int round)
{
    return ct_log_act(log, "adopt", it, round);
}
static inline int ct_log_suspect(const struct ct_log *log) { return ct_log_act(log, "suspect", NULL, -1); }
static inline int ct_log_conclude(const struct ct_log *log) { return ct_log_act(log, "conclude", NULL, -1); }
static inline int ct_log_deliver(const struct ct_log *log, const struct ct_value *batch) { return ct_log_act(log, "deliver", batch, -1); }
static inline int ct_log_follow(const struct ct_log *log, const struct ct_value *batch) { return ct_log_act(log, "follow", batch, -1); }

#endif
