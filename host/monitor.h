/*
 * The proved monitor, for C (C99 and later) and C++ (C++11 and later). Link with libmonitor.a; host/README.md has the lines to build with.
 *
 * Lent memory. A table is one array of 32-bit words, a store one array of bytes. MONITOR_TABLE_WORDS and MONITOR_STORE_BYTES are their
 * lengths; header, cells and subtypes, which the host writes before set-up, are described below, and host/src/layout.rs has every place.
 * The host owns them and lends them for the length of a call: the library keeps nothing, takes no memory and prints nothing. Any lengths
 * and any contents may be given: what is not a well-formed table is refused.
 *
 * What the host owes at each call; the library cannot look after it:
 *
 * - A pointer is not NULL, not even with length 0, is aligned for its type, and is good for as many words, bytes or records as the
 *   length beside it says: to read and, where it is not const, to write.
 * - Nothing that is lent overlaps: table, store, and buffer, image or working slice; of a tray, table, store, `records`, `buffers` and the
 *   working slice.
 * - Nothing else reads or writes it until the call returns: no other thread, no signal handler, no device, no other mapping of it.
 * - `caller` is the slot of the process that really calls. No program may choose it: that is how the monitor knows who asks.
 * - A process gets its own calls' answers and buffers and what its views show, and nothing else of table and store. An image has every
 *   cell's secrets in it: it is kept as the table and the store are. So is a working slice, which tells of every cell.
 * - Between calls table and store stay as the last call left them. A well-formed table that somebody forged is believed.
 * - The stack has room: monitor_reload takes some 133 KiB of it, whatever the table's length; the other functions less than 8 KiB.
 *
 * Threads. The library has no state of its own, so calls on different tables may be made at once. Two calls at once on one table are
 * the host's fault: it must keep them apart, by a lock or by having one thread make them.
 */
#ifndef MONITOR_H
#define MONITOR_H

#include <stddef.h>
#include <stdint.h>

#ifdef __cplusplus
extern "C" {
#endif

/* The calls, with their arguments a, b and c, and what they give. */
enum monitor_code {
    MONITOR_SPAWN = 1, /* Owner, group, bits. Gives a process seid. */
    MONITOR_RELEASE_PROCESS = 2, /* Process seid. */
    MONITOR_BUILD_SEGMENT = 3, /* Size in bytes, bits, sharable 0 or 1. Gives a segment seid and a designator. */
    MONITOR_RENDEZVOUS = 4, /* Segment seid, access. Gives a designator. */
    MONITOR_RELEASE_SEGMENT = 5, /* Designator. */
    MONITOR_SET_ACCESS = 6, /* Designator, access. */
    MONITOR_CREATE_FILE = 7, /* Bits, modes, 0 or a subtype's descriptor + 1. Gives a file seid and a descriptor. */
    MONITOR_OPEN = 8, /* Seid of a file or subtype, modes, 0 or its subtype's descriptor + 1. Gives a descriptor. */
    MONITOR_CLOSE = 9, /* Descriptor. */
    MONITOR_LINK = 10, /* File seid. */
    MONITOR_UNLINK = 11, /* File seid. */
    MONITOR_SET_BITS = 12, /* Seid of a process, a file, or a segment that is not sharable; bits. */
    MONITOR_READ_BLOCK = 13, /* Descriptor, block; a buffer of 512 bytes, which is filled. */
    MONITOR_WRITE_BLOCK = 14, /* Descriptor, block; a buffer of 512 bytes. */
    MONITOR_POST = 15, /* Process seid; a buffer of 12 bytes. */
    MONITOR_RECEIVE = 16, /* A buffer of 16 bytes, which is filled. */
    MONITOR_STATUS = 17, /* Seid; a buffer of 16 bytes, which is filled. */
    MONITOR_ACCESS = 18, /* Designator. Gives an access. */
    MONITOR_REMAP = 19, /* Incoming designator, first page, outgoing designator; 16 is none. */
    MONITOR_PAGE_ACCESS = 20, /* Page. Gives an access. */
    MONITOR_REGRADE = 21, /* Descriptor, cell, bits; a buffer of 4 bytes: owner and group. Gives a file seid. */
};

/* The refusals; 0 is success. A refusal has changed nothing. */
enum monitor_error {
    MONITOR_XOK = 0, /* done */
    MONITOR_XbTab = 1, /* the table is not well formed, a length is wrong, or a working slice is not the table's */
    MONITOR_XbPrSd = 2, /* no such process */
    MONITOR_XbdKcl = 3, /* no such call */
    MONITOR_XbParam = 4, /* an argument is out of range, or a configuration, an image or a tray is bad */
    MONITOR_XbSz = 5, /* a buffer or a working slice has the wrong length */
    MONITOR_XbSgSz = 6, /* no size for a segment */
    MONITOR_XbadModes = 7, /* no valid open modes */
    MONITOR_XnSgDes = 8, /* no designator has that number */
    MONITOR_XbSgDes = 9, /* the designator is empty */
    MONITOR_XbadOd = 10, /* the descriptor is empty or there is none of that number */
    MONITOR_XbSgSd = 11, /* no such segment */
    MONITOR_XnoObj = 12, /* no such object */
    MONITOR_XnoAcc = 13, /* the level forbids it */
    MONITOR_XnoOwner = 14, /* only the owner may */
    MONITOR_XnoPriv = 15, /* only owner 0 may spawn for others */
    MONITOR_XdapViol = 16, /* the owner bits forbid it */
    MONITOR_XsgNoAcc = 17, /* the segment is not sharable */
    MONITOR_XdupSg = 18, /* the segment is held already */
    MONITOR_Xbusy = 19, /* another open is in the way */
    MONITOR_XnotReadable = 20, /* not open for reading */
    MONITOR_XnotWritable = 21, /* not open for writing */
    MONITOR_XbadBlockNo = 22, /* no block has that number */
    MONITOR_XendOfFile = 23, /* the file ends before that block */
    MONITOR_XbadLink = 24, /* the count of links is at its end */
    MONITOR_XodSpace = 25, /* all sixteen places are taken */
    MONITOR_XnoSpace = 26, /* no free slot in the cell */
    MONITOR_XnoProc = 27, /* no free process slot in the cell */
    MONITOR_XpostEh = 28, /* eight messages are waiting already */
    MONITOR_XbNoMes = 29, /* no message is waiting */
    MONITOR_XoutSgAldUmp = 30, /* the outgoing segment is not mapped */
    MONITOR_XinSgAldMap = 31, /* the incoming segment is mapped already */
    MONITOR_XvrtMmCfl = 32, /* its pages are used or pass the last one */
    MONITOR_XshSg = 33, /* a sharable segment's bits are fixed */
    MONITOR_XnoSPriv = 34, /* only the guard cell may regrade */
    MONITOR_XbadStCap = 35, /* no open subtype is named */
    MONITOR_XbadSubtypeMatch = 36, /* the wrong subtype, or it is not open for all that is asked */
};

/* Limits: cells, slots of each kind, blocks of a file, subtypes. */
#define MONITOR_MAX_CELLS 16
#define MONITOR_MAX_SLOTS 256
#define MONITOR_MAX_BLOCKS 64
#define MONITOR_MAX_SUBTYPES 16

/* Words of the parts of a table: header, cells, subtypes, then the records of processes, segments and files. */
#define MONITOR_HEADER_WORDS 8
#define MONITOR_CELL_WORDS 8
#define MONITOR_SUBTYPE_WORDS 4
#define MONITOR_PROCESS_WORDS 112
#define MONITOR_SEGMENT_WORDS 8
#define MONITOR_FILE_WORDS 9

/*
 * The header's words: cells, 1 to 16; process slots, 1 to 256, segment slots and file slots, 0 to 256, in all; blocks of a file, 1 to
 * 64; 0, or the guard cell and 1; subtypes, 0 to 16; a zero.
 */
#define MONITOR_HEADER_GUARD 5
#define MONITOR_HEADER_SUBTYPES 6

/*
 * A cell's words: security, 0 to 15; integrity, 0 to 15; compartments, one in each bit; its process slots, at least 1; its segment
 * slots; its file slots; the owner and the group of its first process, 0 to 65535 each. No two cells have one level (the first three
 * words), and the slots of all cells make the header's numbers. Slots follow each other in the order of the cells, so the first
 * process of a cell is in the slot after the last of the cell before; after set-up it is live, with serial 1 and MONITOR_BITS_FIRST.
 *
 * A subtype's words, behind the cells': its cell, no lower than that of the subtype before; owner, 0 to 65535; group, 0 to 65535; bits,
 * 0 to 511. Subtypes are configuration: set-up leaves them as they are, and no call changes them.
 */

/*
 * Bytes of the buffers: of a block; of a message's text, as it is posted; of a message, as it is received; of a status; and of an owner
 * and a group, as a regrade takes them. Numbers stand in them with their high byte first.
 *
 *   received   0-3 the sender's seid; 4-15 the text as it was posted
 *   status     0 class; 1 cell; 2-3 owner; 4-5 group; 6-7 bits; the cell's level: 8 security, 9 integrity, 10-13 compartments; 14-15 zeros
 *   regrade    0-1 the copy's owner; 2-3 its group
 */
#define MONITOR_BLOCK_BYTES 512
#define MONITOR_TEXT_BYTES 12
#define MONITOR_MESSAGE_BYTES 16
#define MONITOR_STATUS_BYTES 16
#define MONITOR_IDENTITY_BYTES 4

/* The pages of a process's address map, and the bytes of a page. */
#define MONITOR_PAGES 8
#define MONITOR_PAGE_BYTES 8192

/*
 * Open modes. Only five numbers are valid: MODE_READ, MODE_WRITE and the three MODES. Two opens of a file or subtype in its own cell
 * clash when either excludes readers, or one excludes writers and the other writes: a sole writer lets others read, and who is alone lets
 * nobody. To write, a file or subtype must be of the caller's cell.
 */
#define MONITOR_MODE_READ 1
#define MONITOR_MODE_WRITE 2
#define MONITOR_MODE_EXCLUSIVE_READ 4
#define MONITOR_MODE_EXCLUSIVE_WRITE 8
#define MONITOR_MODES_READ_WRITE (MONITOR_MODE_READ | MONITOR_MODE_WRITE)
#define MONITOR_MODES_SOLE_WRITER (MONITOR_MODES_READ_WRITE | MONITOR_MODE_EXCLUSIVE_WRITE)
#define MONITOR_MODES_ALONE (MONITOR_MODES_SOLE_WRITER | MONITOR_MODE_EXCLUSIVE_READ)

/*
 * Access: what a process may do with a segment that it holds. Rendezvous refuses MONITOR_ACCESS_NONE with 4. To write, a segment must be
 * of the caller's cell.
 */
#define MONITOR_ACCESS_NONE 0
#define MONITOR_ACCESS_WRITE 128
#define MONITOR_ACCESS_READ 256
#define MONITOR_ACCESS_READ_WRITE (MONITOR_ACCESS_READ | MONITOR_ACCESS_WRITE)

/*
 * Owner bits, any sum of these, as in 0644. The owner's three speak for the owner, the group's for others of the group, the last three
 * for all others; execute grants nothing. They are judged anew at each use. Who may write to a process may post to it.
 */
#define MONITOR_BITS_OWNER_READ 256
#define MONITOR_BITS_OWNER_WRITE 128
#define MONITOR_BITS_OWNER_EXECUTE 64
#define MONITOR_BITS_GROUP_READ 32
#define MONITOR_BITS_GROUP_WRITE 16
#define MONITOR_BITS_GROUP_EXECUTE 8
#define MONITOR_BITS_ALL_READ 4
#define MONITOR_BITS_ALL_WRITE 2
#define MONITOR_BITS_ALL_EXECUTE 1

/* The bits of each cell's first process after set-up: 0666. */
#define MONITOR_BITS_FIRST 438

/*
 * Subtypes. One is opened and closed as a file is, by the seid of its place among them, MONITOR_SEID_SUBTYPE; it has no blocks. What
 * create and open take as c is MONITOR_SUBTYPE_AT a descriptor, or MONITOR_NO_SUBTYPE.
 *
 * - Create with a subtype of the caller's cell, which is open at that descriptor to read and write, makes a file of that subtype.
 * - Open of such a file takes the descriptor at which the caller has the file's subtype open: to read if the file is to be read, and to
 *   write if it is to be written. Nothing else asks for it: a file stays open when its subtype is closed.
 * - Open of a file without a subtype, and of a subtype itself, takes any c.
 */
#define MONITOR_NO_SUBTYPE 0
#define MONITOR_SUBTYPE_AT(descriptor) ((uint32_t)(descriptor) + 1)

/* What remap takes for no designator. */
#define MONITOR_NO_DESIGNATOR 16

/* The lengths of table and store, by the header's numbers. */
#define MONITOR_TABLE_WORDS(cells, processes, segments, files, subtypes)                                                     \
    (MONITOR_HEADER_WORDS + MONITOR_CELL_WORDS * (size_t)(cells) + MONITOR_SUBTYPE_WORDS * (size_t)(subtypes) +             \
     MONITOR_PROCESS_WORDS * (size_t)(processes) + MONITOR_SEGMENT_WORDS * (size_t)(segments) +                             \
     MONITOR_FILE_WORDS * (size_t)(files))
#define MONITOR_STORE_BYTES(files, blocks) ((size_t)(files) * (size_t)(blocks) * MONITOR_BLOCK_BYTES)

/* No working slice is longer. monitor_work_length tells the exact length. */
#define MONITOR_WORK_WORDS(cells, processes, segments, files)                                                                \
    (3 * (size_t)(cells) + (size_t)(processes) + (size_t)(segments) + (size_t)(files) + (size_t)(processes) * (size_t)(files))

/* No image is longer: a word takes up to five bytes. monitor_image_length tells the exact length. */
#define MONITOR_IMAGE_BYTES(words, bytes) (5 * (size_t)(words) + (size_t)(bytes))

/*
 * Identifiers: a class (process, segment or file), a slot and a serial that counts the slot's uses; or the class of subtypes, a place
 * among them, and serial 1. 0 is the caller. The slot of a process seid, as spawn gives one, is the number by which that process calls:
 * its `caller`.
 */
#define MONITOR_CLASS_PROCESS 4
#define MONITOR_CLASS_SEGMENT 5
#define MONITOR_CLASS_FILE 129
#define MONITOR_CLASS_SUBTYPE 6
#define MONITOR_SEID(class_, slot, serial) ((uint32_t)(class_) << 24 | (uint32_t)(slot) << 16 | (uint32_t)(serial))
#define MONITOR_SEID_SUBTYPE(index) MONITOR_SEID(MONITOR_CLASS_SUBTYPE, index, 1)
#define MONITOR_SEID_SLOT(seid) ((uint32_t)(seid) >> 16 & 255)

/* A number of enum monitor_error, and two results. A refusal has two zeros. */
typedef struct {
    uint32_t error;
    uint32_t first;
    uint32_t second;
} monitor_answer;

/* A number of enum monitor_error, and a part of the store: its first byte and its count of bytes. A refusal has two zeros. */
typedef struct {
    uint32_t error;
    size_t from, count;
} monitor_part;

/* Set-up: reads the header, cell and subtype words that stand in the table, and writes every record. 0, or 4 and nothing is changed. */
uint32_t monitor_setup(uint32_t *table, size_t words, size_t store_bytes);

/* 0 if the table is well formed, 1 if it is not. */
uint32_t monitor_check(const uint32_t *table, size_t words, size_t store_bytes);

/*
 * One call by the process in slot `caller`: any numbers. A buffer is looked at by the calls alone that name one above, and must then
 * have exactly that length; only a successful 13, 16 or 17 changes it.
 */
monitor_answer monitor_call(uint32_t *table, size_t words, uint8_t *store, size_t bytes,
                            uint32_t caller, uint32_t code, uint32_t a, uint32_t b, uint32_t c,
                            uint8_t *buffer, size_t length);

/*
 * The block b of the file that the process in slot `caller` has open at descriptor a, as it stands in the store: 512 bytes, without a
 * copy. The refusals are those of call 13, but for the buffer's length. Nothing is changed; what is shown is the host's to keep as it
 * is while it is looked at.
 */
monitor_part monitor_view(const uint32_t *table, size_t words, const uint8_t *store, size_t bytes,
                          uint32_t caller, uint32_t a, uint32_t b);

/*
 * A call by the tray: its numbers, its buffer as a part of the bytes that are lent with the tray (offset and length), and room for its answer.
 */
typedef struct {
    uint32_t caller, code, a, b, c, offset, length;
    monitor_answer answer;
} monitor_record;

/* The most records of a tray. */
#define MONITOR_TRAY_RECORDS 1024

/*
 * Runs the records in order, on a table that is judged once; each answer is written into its record. 0; or 4 for a tray that is too long, then 1
 * for a table that is not well formed, and nothing is changed, records included. A part that does not lie inside the bytes answers 5 in its
 * record, after 2 and 3 and before the call's own list, also for a call that looks at no buffer, and the tray goes on. Parts may overlap: a
 * record sees what those before it wrote.
 */
uint32_t monitor_tray(uint32_t *table, size_t words, uint8_t *store, size_t bytes,
                      monitor_record *records, size_t count, uint8_t *buffers, size_t length);

/*
 * Quick trays. A working slice has, in 32-bit words, what a table says of its free slots and of its open files, in an order in which they
 * are quickly found:
 *
 * - for processes, then segments, then files, and cell by cell, a list of the cell's slots that can be taken: how many there are, then
 *   256 * serial + slot of each, falling, then zeros; in all one word more than the cell has slots;
 * - cell by cell, process by process of the cell, a word for each file of the cell: bit d is set where descriptor d of that process holds
 *   an identifier of that file's slot.
 *
 * It is filled once, and serves from one quick tray to the next as long as nothing else changes the table.
 */

/* How many words the table's working slice has; 0 if the table is bad. */
size_t monitor_work_length(const uint32_t *table, size_t words, size_t store_bytes);

/*
 * Fills a working slice, whatever stands in it. 0; or 1 for a bad table, then 5 if `work_words` is not exactly the slice's length, and it
 * stays as it was.
 */
uint32_t monitor_work(const uint32_t *table, size_t words, size_t store_bytes, uint32_t *work, size_t work_words);

/*
 * As monitor_tray, with the table's working slice behind what that takes: the answers, the table, the store and the bytes are those of a
 * tray, and the slice is the table's again. Of the refusals 4 and 1 come first, as in a tray, then 1 for a working slice that is not the
 * table's; nothing is changed then, records and slice included.
 */
uint32_t monitor_quick_tray(uint32_t *table, size_t words, uint8_t *store, size_t bytes,
                            monitor_record *records, size_t count, uint8_t *buffers, size_t buffer_bytes,
                            uint32_t *work, size_t work_words);

/*
 * The evening image: every word of the table in seven-bit groups, the low group first and the high bit on all but the last, then the
 * store's bytes. Its exact length; 0 if the table is bad.
 */
size_t monitor_image_length(const uint32_t *table, size_t words, size_t store_bytes);

/*
 * Writes the image to the front of `out`; what is past it stays. 0; or 1 for a bad table, then 5 if `length` is too short, and `out`
 * stays as it was.
 */
uint32_t monitor_image(const uint32_t *table, size_t words, const uint8_t *store, size_t bytes, uint8_t *out, size_t length);

/*
 * The morning reload: table and store as the image has them, whatever stood there; `length` is the image's own. 0; or 4 for an image
 * that is cut, has bytes over, breaks the number form, is not well formed, or is of other lengths than the table and the store lent,
 * and nothing is touched.
 *
 * Stack. The words are judged on the stack before the table is written. However small the table, the function takes the room of the
 * largest there: 4 * MONITOR_TABLE_WORDS(MONITOR_MAX_CELLS, MONITOR_MAX_SLOTS, MONITOR_MAX_SLOTS, MONITOR_MAX_SLOTS,
 * MONITOR_MAX_SUBTYPES), which is 132,896 bytes, and on x86-64 some 3 KiB more. A thread with a smaller stack, 64 KiB say, overruns it.
 *
 * A reload is no call: it takes history back. Identifiers are single, and nothing flows down, between reloads only.
 */
uint32_t monitor_reload(uint32_t *table, size_t words, uint8_t *store, size_t bytes, const uint8_t *image, size_t length);

/* The name of an error number, as the documents spell it and replay writes it; "?" if there is none. */
static inline const char *monitor_error_name(uint32_t error)
{
    static const char *const names[] = {
        "XOK", "XbTab", "XbPrSd", "XbdKcl", "XbParam", "XbSz", "XbSgSz", "XbadModes", "XnSgDes", "XbSgDes", "XbadOd",
        "XbSgSd", "XnoObj", "XnoAcc", "XnoOwner", "XnoPriv", "XdapViol", "XsgNoAcc", "XdupSg", "Xbusy", "XnotReadable",
        "XnotWritable", "XbadBlockNo", "XendOfFile", "XbadLink", "XodSpace", "XnoSpace", "XnoProc", "XpostEh",
        "XbNoMes",
        "XoutSgAldUmp", "XinSgAldMap", "XvrtMmCfl", "XshSg", "XnoSPriv", "XbadStCap", "XbadSubtypeMatch",
    };
    return error < sizeof names / sizeof *names ? names[error] : "?";
}

#ifdef __cplusplus
}
#endif

#endif
