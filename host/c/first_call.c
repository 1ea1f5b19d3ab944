/* Sets up the smallest hall, spawns one process, writes and reads a block, and prints what came back. C99, and C++ as it stands. */

#include "monitor.h"

#include <inttypes.h>
#include <stdio.h>

/* One cell with two process slots, no segments and one file of one block. */
#define PROCESSES 2
#define FILES 1
#define BLOCKS 1
#define WORDS MONITOR_TABLE_WORDS(1, PROCESSES, 0, FILES, 0)
#define BYTES MONITOR_STORE_BYTES(FILES, BLOCKS)

/* The host owns both, and lends them to each call. */
static uint32_t table[WORDS] = {
    1, PROCESSES, 0, FILES, BLOCKS, 0, 0, 0, /* the header */
    1, 0, 0, PROCESSES, 0, FILES, 0, 0,      /* the cell: security 1; owner and group 0 */
};
static uint8_t store[BYTES];

/* A call by process 0; a buffer is never NULL, also where the call has none. */
static monitor_answer call(uint32_t code, uint32_t a, uint32_t b, uint32_t c, uint8_t *buffer, size_t length)
{
    static uint8_t none[1];
    return monitor_call(table, WORDS, store, BYTES, 0, code, a, b, c, length == 0 ? none : buffer, length);
}

int main(void)
{
    uint8_t block[MONITOR_BLOCK_BYTES] = {'q', 'u', 'i', 'e', 't'};
    monitor_answer answer;
    monitor_part part;

    printf("set-up: %s\n", monitor_error_name(monitor_setup(table, WORDS, BYTES)));
    printf("well formed: %s\n", monitor_check(table, WORDS, BYTES) == 0 ? "yes" : "no");

    answer = call(MONITOR_SPAWN, 17, 18, 0666, NULL, 0); /* 0666: all may post to it */
    printf("spawn, owner 17, group 18: %s, seid %" PRIu32 "\n", monitor_error_name(answer.error), answer.first);
    answer = call(MONITOR_SPAWN, 17, 18, 0666, NULL, 0);
    printf("spawn once more: %s\n", monitor_error_name(answer.error));

    answer = call(MONITOR_CREATE_FILE, 0600, 3, 0, NULL, 0);
    printf("create a file: %s, seid %" PRIu32 ", descriptor %" PRIu32 "\n", monitor_error_name(answer.error),
           answer.first, answer.second);
    answer = call(MONITOR_WRITE_BLOCK, answer.second, 0, 0, block, sizeof block);
    printf("write its block 0: %s\n", monitor_error_name(answer.error));
    block[0] = 'Q';
    answer = call(MONITOR_READ_BLOCK, 0, 0, 0, block, sizeof block);
    printf("read it: %s, \"%s\"\n", monitor_error_name(answer.error), (const char *)block);
    part = monitor_view(table, WORDS, store, BYTES, 0, 0, 0); /* without a copy */
    printf("view it: %s, \"%s\"\n", monitor_error_name(part.error), (const char *)store + part.from);
    return 0;
}
