/*
 * Subtyped files. The directory manager has a subtype open that nobody else may open, and makes a directory, a file of that subtype. All
 * may read the file by its own bits; a clerk cannot open it all the same, for want of the subtype. C99, and C++ as it stands.
 */

#include "monitor.h"

#include <inttypes.h>
#include <stdio.h>

/* One cell with two process slots and one file of one block; one subtype. */
enum { MANAGER = 0, CLERK = 1 }; /* their slots */
#define WORDS MONITOR_TABLE_WORDS(1, 2, 0, 1, 1)
#define BYTES MONITOR_STORE_BYTES(1, 1)

static uint32_t table[WORDS] = {
    1, 2, 0, 1, 1, 0, 1, 0, /* the header, with the number of subtypes */
    1, 0, 0, 2, 0, 1, 0, 0, /* the cell: security 1; owner and group 0, the manager's */
    0, 0, 0, 0600,          /* the subtype: of cell 0; owner and group 0; the owner alone may open it */
};
static uint8_t store[BYTES];

static monitor_answer call(const char *what, uint32_t caller, uint32_t code, uint32_t a, uint32_t b, uint32_t c)
{
    static uint8_t none[1];
    monitor_answer answer = monitor_call(table, WORDS, store, BYTES, caller, code, a, b, c, none, 0);
    printf("%s: %s\n", what, monitor_error_name(answer.error));
    return answer;
}

int main(void)
{
    const uint32_t subtype = MONITOR_SEID_SUBTYPE(0), both = MONITOR_MODES_READ_WRITE, read = MONITOR_MODE_READ;
    uint32_t held, directory;

    printf("set-up: %s\n", monitor_error_name(monitor_setup(table, WORDS, BYTES)));
    call("the manager spawns a clerk", MANAGER, MONITOR_SPAWN, 17, 18, 0666);

    held = call("the manager opens the subtype", MANAGER, MONITOR_OPEN, subtype, both, MONITOR_NO_SUBTYPE).first;
    call("the clerk opens the subtype", CLERK, MONITOR_OPEN, subtype, read, MONITOR_NO_SUBTYPE);

    directory = call("the manager makes a directory", MANAGER, MONITOR_CREATE_FILE, 0644, both, MONITOR_SUBTYPE_AT(held)).first;
    call("the clerk opens it", CLERK, MONITOR_OPEN, directory, read, MONITOR_NO_SUBTYPE);
    call("the manager opens it", MANAGER, MONITOR_OPEN, directory, read, MONITOR_NO_SUBTYPE);
    call("the manager opens it with its subtype", MANAGER, MONITOR_OPEN, directory, read, MONITOR_SUBTYPE_AT(held));
    call("the manager closes the subtype", MANAGER, MONITOR_CLOSE, held, 0, 0);
    printf("the directory is seid %" PRIu32 ", in slot %" PRIu32 "\n", directory, MONITOR_SEID_SLOT(directory));
    return 0;
}
