/*
 * The regrading desk. A clerk at security 1 posts to the desk, which is the guard cell, at security 3; the desk asks who that is, and
 * copies a file of its own down to the clerk's cell. C99, and C++ as it stands.
 */

#include "monitor.h"

#include <inttypes.h>
#include <stdio.h>

/* The clerk's cell and the desk's, each with one process slot and one file of one block. */
enum { CLERK = 0, DESK = 1 }; /* cells; with one process slot each, the slots of their processes too */
#define WORDS MONITOR_TABLE_WORDS(2, 2, 0, 2, 0)
#define BYTES MONITOR_STORE_BYTES(2, 1)

static uint32_t table[WORDS] = {
    2, 2, 0, 2, 1, DESK + 1, 0, 0,     /* the header, with the guard cell */
    1, 0, 0, 1, 0, 1, 10, 20,          /* the clerk's cell: security 1; owner 10, group 20 */
    3, 0, 0x80000001, 1, 0, 1, 30, 40, /* the desk's: security 3, the first and the last compartment; owner 30, group 40 */
};
static uint8_t store[BYTES];

static monitor_answer call(uint32_t caller, uint32_t code, uint32_t a, uint32_t b, uint32_t c, uint8_t *buffer, size_t length)
{
    static uint8_t none[1];
    return monitor_call(table, WORDS, store, BYTES, caller, code, a, b, c, length == 0 ? none : buffer, length);
}

/* Numbers in buffers have their high byte first. */
static uint32_t two(const uint8_t *bytes)
{
    return (uint32_t)bytes[0] << 8 | bytes[1];
}

static uint32_t four(const uint8_t *bytes)
{
    return two(bytes) << 16 | two(bytes + 2);
}

static void status(uint32_t caller, uint32_t seid)
{
    uint8_t told[MONITOR_STATUS_BYTES];
    monitor_answer answer = call(caller, MONITOR_STATUS, seid, 0, 0, told, sizeof told);
    printf("status: %s", monitor_error_name(answer.error));
    if (answer.error == MONITOR_XOK) {
        printf(", class %u of cell %u, owner %" PRIu32 ", group %" PRIu32 ", bits %04" PRIo32, told[0], told[1], two(told + 2),
               two(told + 4), two(told + 6));
        printf("; security %u, integrity %u, compartments %08" PRIx32, told[8], told[9], four(told + 10));
    }
    printf("\n");
}

static void post(const char *who, uint32_t caller, uint32_t receiver, const char *text)
{
    uint8_t bytes[MONITOR_TEXT_BYTES];
    size_t i;
    for (i = 0; i < sizeof bytes; i++) {
        bytes[i] = (uint8_t)text[i];
    }
    printf("%s posts: %s\n", who, monitor_error_name(call(caller, MONITOR_POST, receiver, 0, 0, bytes, sizeof bytes).error));
}

int main(void)
{
    const uint32_t clerk = MONITOR_SEID(MONITOR_CLASS_PROCESS, CLERK, 1), desk = MONITOR_SEID(MONITOR_CLASS_PROCESS, DESK, 1);
    const uint32_t bits = MONITOR_BITS_OWNER_READ | MONITOR_BITS_OWNER_WRITE | MONITOR_BITS_GROUP_READ;
    uint8_t message[MONITOR_MESSAGE_BYTES], block[MONITOR_BLOCK_BYTES] = {'a', 'l', 'l', ' ', 'c', 'l', 'e', 'a', 'r'};
    uint8_t identity[MONITOR_IDENTITY_BYTES] = {0, 10, 0, 20}; /* the clerk's owner and group */
    uint32_t sender, file, copy;
    monitor_answer answer;

    printf("set-up: %s\n", monitor_error_name(monitor_setup(table, WORDS, BYTES)));

    post("the clerk", CLERK, desk, "which files?");
    answer = call(DESK, MONITOR_RECEIVE, 0, 0, 0, message, sizeof message);
    sender = four(message);
    printf("the desk receives: %s, \"%.12s\" from slot %" PRIu32 "\n", monitor_error_name(answer.error), (const char *)message + 4,
           MONITOR_SEID_SLOT(sender));
    status(DESK, sender);
    status(DESK, 0);     /* itself */
    status(CLERK, desk); /* nothing flows down */
    post("the desk", DESK, clerk, "this is how.");

    answer = call(DESK, MONITOR_CREATE_FILE, bits, MONITOR_MODES_SOLE_WRITER, 0, NULL, 0);
    file = answer.second;
    call(DESK, MONITOR_WRITE_BLOCK, file, 0, 0, block, sizeof block);
    answer = call(CLERK, MONITOR_REGRADE, 0, CLERK, bits, identity, sizeof identity);
    printf("the clerk regrades: %s\n", monitor_error_name(answer.error));
    answer = call(DESK, MONITOR_REGRADE, file, CLERK, bits, identity, sizeof identity);
    copy = answer.first;
    printf("the desk regrades: %s, seid %" PRIu32 "\n", monitor_error_name(answer.error), copy);

    block[0] = '?';
    status(CLERK, copy);
    answer = call(CLERK, MONITOR_OPEN, copy, MONITOR_MODE_READ, 0, NULL, 0);
    answer = call(CLERK, MONITOR_READ_BLOCK, answer.first, 0, 0, block, sizeof block);
    printf("the clerk reads: %s, \"%s\"\n", monitor_error_name(answer.error), (const char *)block);
    return 0;
}
