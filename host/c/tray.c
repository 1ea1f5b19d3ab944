/* Calls by the tray: a file is created, written and read back by three records of one tray, whose buffers are parts of one array. */
#include "monitor.h"
#include <stdio.h>

static uint32_t table[MONITOR_TABLE_WORDS(1, 1, 0, 1, 0)] = {
    1, 1, 0, 1, 1, 0, 0, 0, /* one cell; one process slot, no segments, one file of one block */
    1, 0, 0, 1, 0, 1, 0, 0, /* the cell: security 1, integrity 0, no compartments; its slots; owner and group 0 */
};
static uint8_t store[MONITOR_STORE_BYTES(1, 1)];
enum { WORDS = sizeof table / sizeof *table, BYTES = sizeof store };

int main(void)
{
    static uint8_t buffers[2 * MONITOR_BLOCK_BYTES] = "quiet";
    static monitor_record night[] = {
        { 0, MONITOR_CREATE_FILE, 0644, 3, 0, 0, 0, { 0, 0, 0 } },
        { 0, MONITOR_WRITE_BLOCK, 0, 0, 0, 0, MONITOR_BLOCK_BYTES, { 0, 0, 0 } },
        { 0, MONITOR_READ_BLOCK, 0, 0, 0, MONITOR_BLOCK_BYTES, MONITOR_BLOCK_BYTES, { 0, 0, 0 } },
        { 0, MONITOR_CLOSE, 0, 0, 0, sizeof buffers, 1, { 0, 0, 0 } }, /* a part one byte past the end */
    };
    static monitor_record many[MONITOR_TRAY_RECORDS + 1];
    size_t count = sizeof night / sizeof *night, i;
    uint32_t answer;

    monitor_setup(table, WORDS, BYTES);
    answer = monitor_tray(table, WORDS, store, BYTES, night, count, buffers, sizeof buffers);
    printf("the tray: %s, %u bytes a record\n", monitor_error_name(answer), (unsigned)sizeof *night);
    for (i = 0; i < count; i++) {
        printf("record %u: %s\n", (unsigned)i, monitor_error_name(night[i].answer.error));
    }
    printf("read back: \"%s\"\n", (const char *)buffers + MONITOR_BLOCK_BYTES);
    answer = monitor_tray(table, WORDS, store, BYTES, many, MONITOR_TRAY_RECORDS + 1, buffers, sizeof buffers);
    printf("too long: %s\n", monitor_error_name(answer));
    return 0;
}
