/* Quick trays: the working slice is filled once and serves every tray, until a call changes the table without it. */
#include "monitor.h"
#include <stdio.h>

static uint32_t table[MONITOR_TABLE_WORDS(1, 1, 0, 2, 0)] = {
    1, 1, 0, 2, 1, 0, 0, 0, /* one cell; one process slot, no segments, two files of one block */
    1, 0, 0, 1, 0, 2, 0, 0, /* the cell: security 1, integrity 0, no compartments; its slots; owner and group 0 */
};
static uint8_t store[MONITOR_STORE_BYTES(2, 1)], none[1];
static uint32_t work[MONITOR_WORK_WORDS(1, 1, 0, 2)];
enum { WORDS = sizeof table / sizeof *table, BYTES = sizeof store };

/* A tray that creates a file, which is open at the first descriptor that is free, and closes it: nothing keeps it, so it is gone. */
static void night(const char *name, size_t work_words, uint32_t descriptor)
{
    monitor_record records[] = {
        { 0, MONITOR_CREATE_FILE, 0644, 3, 0, 0, 0, { 0, 0, 0 } },
        { 0, MONITOR_CLOSE, descriptor, 0, 0, 0, 0, { 0, 0, 0 } },
    };
    uint32_t answer = monitor_quick_tray(table, WORDS, store, BYTES, records, 2, none, 0, work, work_words);

    printf("%s: %s", name, monitor_error_name(answer));
    if (answer == MONITOR_XOK) {
        printf(", the file is in slot %u", (unsigned)MONITOR_SEID_SLOT(records[0].answer.first));
    }
    printf("\n");
}

int main(void)
{
    size_t work_words;

    monitor_setup(table, WORDS, BYTES);
    work_words = monitor_work_length(table, WORDS, BYTES);
    printf("the working slice has %u words\n", (unsigned)work_words);
    printf("filled: %s\n", monitor_error_name(monitor_work(table, WORDS, BYTES, work, work_words)));
    night("first tray", work_words, 0);
    night("second tray", work_words, 0);
    night("third tray", work_words, 0);
    monitor_call(table, WORDS, store, BYTES, 0, MONITOR_CREATE_FILE, 0644, 3, 0, none, 0);
    night("after a call", work_words, 1);
    printf("filled again: %s\n", monitor_error_name(monitor_work(table, WORDS, BYTES, work, work_words)));
    night("fourth tray", work_words, 1);
    printf("one word short: %s\n", monitor_error_name(monitor_work(table, WORDS, BYTES, work, work_words - 1)));
    return 0;
}
