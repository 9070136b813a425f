/* SPDX-License-Identifier: Apache-2.0
 *
 * Drives libpmemlog, PMDK's log, and prints what it holds.
 *     pmdk_log FILE create | append TEXT .. | rewind | show
 */
#include <libpmemlog.h>
#include <stdio.h>
#include <string.h>

static int print(const void *bytes, size_t size, void *unused)
{
    fwrite(bytes, 1, size, stdout);
    return 1;
}

int main(int count, char **words)
{
    if (count < 3) return 64;
    int creates = !strcmp(words[2], "create");
    PMEMlogpool *log = creates ? pmemlog_create(words[1], PMEMLOG_MIN_POOL, 0644) : pmemlog_open(words[1]);
    if (!log) {
        fprintf(stderr, "%s\n", pmemlog_errormsg());
        return 65;
    }
    if (!strcmp(words[2], "rewind")) pmemlog_rewind(log);
    for (int i = 3; i < count; i++)
        if (pmemlog_append(log, words[i], strlen(words[i]))) return 66;
    if (!strcmp(words[2], "show")) pmemlog_walk(log, 0, print, NULL);
    pmemlog_close(log);
    return 0;
}
