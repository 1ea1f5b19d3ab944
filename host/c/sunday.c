/* Writes the image of a hall to memory, goes on, and takes the image back; a damaged one is refused. C99, and C++ as it stands. */

#include "monitor.h"

#include <inttypes.h>
#include <stdio.h>

#define WORDS MONITOR_TABLE_WORDS(1, 1, 0, 1, 0)
#define BYTES MONITOR_STORE_BYTES(1, 1)

static uint32_t table[WORDS] = {
    1, 1, 0, 1, 1, 0, 0, 0, /* the header: one cell, one process slot, one file of one block */
    1, 0, 0, 1, 0, 1, 0, 0, /* the cell */
};
static uint8_t store[BYTES];
static uint8_t image[MONITOR_IMAGE_BYTES(WORDS, BYTES)];

static void create(void)
{
    static uint8_t none[1];
    monitor_answer answer = monitor_call(table, WORDS, store, BYTES, 0, MONITOR_CREATE_FILE, 0600, 3, 0, none, 0);
    printf("create a file: %s, seid %" PRIu32 "\n", monitor_error_name(answer.error), answer.first);
}

int main(void)
{
    size_t length;

    monitor_setup(table, WORDS, BYTES);
    length = monitor_image_length(table, WORDS, BYTES);
    printf("the image has %u bytes\n", (unsigned)length);
    printf("with a byte less: %s\n", monitor_error_name(monitor_image(table, WORDS, store, BYTES, image, length - 1)));
    printf("written: %s\n", monitor_error_name(monitor_image(table, WORDS, store, BYTES, image, sizeof image)));
    create();
    printf("cut: %s\n", monitor_error_name(monitor_reload(table, WORDS, store, BYTES, image, length - 1)));
    printf("reload: %s\n", monitor_error_name(monitor_reload(table, WORDS, store, BYTES, image, length)));
    create();
    return 0;
}
