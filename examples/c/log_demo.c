/* Writes the log of a group of one member, which delivers ten messages in one batch:
 *
 *     cc -std=c11 -Wall -Wextra -Werror -o log_demo log_demo.c && ./log_demo 1.log && ct_tool merge 1.log */
#define _POSIX_C_SOURCE 200809L
#include "ct_log.h"

#define MESSAGES 10

int main(int count, char **words)
{
    struct ct_log log;
    struct ct_message messages[MESSAGES];
    struct ct_value value = {messages, MESSAGES};
    if (count != 2) { fprintf(stderr, "usage: log_demo FILE\n"); return 2; }
    int failed = ct_log_open(&log, words[1], 1, 1, 16);
    for (int at = 0; !failed && at < MESSAGES; at++) {
        messages[at] = (struct ct_message){1, at + 1};
        failed = ct_log_submit(&log, "set 0 7") || ct_log_receive_data(&log, messages[at], 1, "set 0 7");
    }
    failed = failed || ct_log_begin(&log, &value) || ct_log_enter(&log, &value, 0) || ct_log_receive(&log, "est", 1, 1, 1, &value, 0)
        || ct_log_choose(&log, 1, &value) || ct_log_receive(&log, "prop", 1, 1, 1, &value, -1) || ct_log_adopt(&log, &value, 1)
        || ct_log_receive(&log, "ack", 1, 1, 1, NULL, -1) || ct_log_conclude(&log)
        || ct_log_receive(&log, "dec", 1, 1, 1, &value, -1) || ct_log_deliver(&log, &value);
    if (failed) { perror(words[1]); return 1; }
    return 0;
}
