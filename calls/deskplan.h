/*
 * The calls of the desk planner for programs in C. Every call takes every file, every desk number and every
 * lent buffer of any length: nothing has to be checked first, no call fails, and each either answers or
 * refuses by a number of the table below. Each is proved to read nothing but what it is lent, to write
 * nothing but what it says here, and to end. Link with libdeskplan.a (see README.md in this folder), which is
 * code for Linux on x86-64 alone.
 *
 * What C asks of the caller, as of any call: a pointer holds for the length given with it, and may be NULL
 * where that length is 0. answer, stretch and written are never NULL. A pointer to numbers of more than one
 * byte (pieces, links, answer, stretch, written) is aligned as its type asks. What is written (buffer, text,
 * answer, stretch, written) overlaps nothing else that is lent to the same call: no file, records, pieces or
 * links, and no other thing that is written. What is only read may overlap.
 *
 * The calls keep nothing from one to the next and allocate nothing, so they may run at the same time on
 * different buffers. Their tables stand on the stack: desk_plan takes 28 KB of it, desk_listing 28 KB, desk_blocks
 * 42 to 77 KB (the most for 256 pieces of which each interrupts the one before), the others less than 1 KB.
 * DESK_STACK bytes are enough for every call.
 */
#ifndef DESKPLAN_H
#define DESKPLAN_H

#include <stddef.h>
#include <stdint.h>

#ifdef __cplusplus
extern "C" {
#endif

enum {
    DESK_RECORD = 16,            /* bytes of a record, in the file and in the buffers */
    DESK_MOST_PIECES = 256,      /* in one file */
    DESK_MOST_LINKS = 1024,      /* in one file */
    DESK_DECIDING = 20496,       /* these first bytes of a file decide; nothing after them counts */
    DESK_ROOM_FOR_A_PIECE = 48,  /* bytes of buffer that plan and sheet ask for each piece of the file */
    DESK_ROOM = 12288,           /* bytes of buffer that are enough for every file */
    DESK_PIECE_ROW = 4,          /* numbers of a piece that desk_write takes */
    DESK_LINK_ROW = 3,           /* numbers of a link that it takes */
    DESK_FILE_ROOM = 20480,      /* bytes of the longest file that it makes */
    DESK_LISTING_ROOM = 131072,  /* bytes that desk_listing asks for */
    DESK_STACK = 131072          /* bytes of stack that are enough for every call */
};

/*
 * The job file: records of 16 bytes, no header, first all pieces, then all links. Numbers of more than one byte
 * are little-endian, the lowest byte first. A piece's number is its place among the pieces, from 0.
 *
 *   byte    piece                        link
 *   0       DESK_PIECE_RECORD            DESK_LINK_RECORD
 *   1       desk, 0 to 31                zero
 *   2       duration, low byte           number of the piece before, low byte
 *   3       duration, high byte          number of the piece before, high byte
 *   4       release, lowest byte         number of the piece after, low byte
 *   5       release, second byte         number of the piece after, high byte
 *   6       release, third byte          handover, low byte
 *   7       release, highest byte        handover, high byte
 *   8       due, lowest byte             zero
 *   9       due, second byte             zero
 *   10      due, third byte              zero
 *   11      due, highest byte            zero
 *   12-15   zero                         zero
 *
 * A duration is 1 to 960, a release and a due 0 to 40,000, a handover 0 to 480, all in slots of a quarter-hour.
 */
enum { DESK_PIECE_RECORD = 1, DESK_LINK_RECORD = 2 };

/*
 * The refusals. Whole records are judged in file order, each for 2, 3, 4, 5, 6, 7, 9, 10, 8 in that order;
 * then come 1, 11, 13, 12, and 14 for desk_write. The first that holds is the refusal. Records count from 0.
 * A refused call has zero in every number of its answer but the first two, and touches no byte of the buffer.
 */
enum {
    DESK_ACCEPTED = 0,            /* place 0 */
    DESK_BYTES_LEFT = 1,          /* bytes after the last whole record; place: the count of whole records.
                                     desk_write: numbers after the last whole row of pieces or of links;
                                     place: the count of whole rows of both lists together */
    DESK_KIND_UNKNOWN = 2,        /* place of this and of all up to 10: the record */
    DESK_PIECE_AFTER_LINK = 3,
    DESK_TOO_MANY = 4,            /* a 257th piece or a 1,025th link */
    DESK_DESK_ABOVE_31 = 5,
    DESK_DURATION = 6,            /* 0 or above 960 */
    DESK_RELEASE_OR_DUE = 7,      /* above 40,000 */
    DESK_NOT_ZERO = 8,            /* a byte that must be zero is not */
    DESK_NO_SUCH_PIECE = 9,       /* a link names a number not below the count of pieces read before it */
    DESK_HANDOVER = 10,           /* above 480 */
    DESK_RING = 11,               /* a piece leads by links back to itself; place: the lowest such piece */
    DESK_BUFFER_TOO_SHORT = 12,   /* shorter than 48 bytes times the pieces of the file; place 0 */
    DESK_ASKED_ABOVE_31 = 13,     /* block sheet only; place 0 */
    DESK_FILE_ROOM_SHORT = 14     /* desk_write only: the buffer is too short for the file; place 0 */
};

/*
 * Places in the answer of desk_plan, of desk_blocks and of desk_write. Number and place are the same in all, and
 * all answers are of int64_t, so one function reads every refusal.
 */
enum { DESK_NUMBER, DESK_PLACE, DESK_PIECES, DESK_RUNS, DESK_END, DESK_WORST, DESK_PLAN_ANSWER };
enum { DESK_SHEET_BLOCKS = 2, DESK_SHEET_RUNS, DESK_SHEET_WORST, DESK_SHEET_ANSWER };
enum { DESK_FILE_BYTES = 2, DESK_WRITE_ANSWER }; /* of desk_write */

/*
 * The first byte of the records that the calls write. Byte 1 is the desk, 2-3 the piece (of a block: how many
 * pieces it has), then three numbers of four bytes, little-endian:
 *   result: start, finish (not worked), latest moment (signed, two's complement)
 *   run:    from, until (not worked), zero
 *   block:  from, end (not worked), zero
 */
enum { DESK_RESULT_RECORD = 17, DESK_RUN_RECORD = 18, DESK_BLOCK_RECORD = 19 };

/*
 * Plans every desk of a job file. The buffer gets a result record for each piece by number, then the run
 * records by desk and then by start: 16 * (pieces + runs) bytes; the bytes after them stay.
 * Answer: number and place of the refusal or 0 and 0, pieces, runs, end (the largest finish), worst (the
 * greatest lateness, below zero if all are early). All zero for a file without pieces.
 */
void desk_plan(const uint8_t *file, size_t file_len, uint8_t *buffer, size_t buffer_len,
               int64_t answer[DESK_PLAN_ANSWER]);

/*
 * The block sheet of one desk. The buffer gets a block record for each block of the first cutting by time,
 * then the run records of the block method by time: 16 * (blocks + runs) bytes; the bytes after them stay.
 * It asks the same room as desk_plan, whatever the desk has.
 * Answer: number and place, blocks, runs, worst lateness on this desk; all zero for a desk without pieces.
 */
void desk_blocks(const uint8_t *file, size_t file_len, uint8_t desk, uint8_t *buffer, size_t buffer_len,
                 int64_t answer[DESK_SHEET_ANSWER]);

/*
 * The runs of one desk out of the records of a plan, as a stretch of them: stretch[0] is its first byte and
 * stretch[1] the byte after its last, 0 and 0 where the desk has none. Lend only the records written, not the
 * room after them. Any bytes and any desk number may be given; nothing is refused.
 */
void desk_runs(const uint8_t *records, size_t records_len, uint8_t desk, uint64_t stretch[2]);

/*
 * The text that the program deskplan prints for a job file, without a zero byte at its end. written[0] says how
 * many bytes it took; a text buffer of less than DESK_LISTING_ROOM bytes stays as it was, and written[0] is 0.
 */
void desk_listing(const uint8_t *file, size_t file_len, uint8_t *text, size_t text_len, uint64_t written[1]);

/*
 * Makes a job file of pieces and links that were typed into a form, in their order. A piece is a row of four
 * numbers: desk, duration, release, due; a link a row of three: the piece before, the piece after, handover.
 * The lengths count numbers. The file stands at the front of the buffer; the bytes after it stay. What
 * desk_plan reads in it is what was typed, and a file that desk_plan reads is made again byte by byte.
 * Rows are judged as their records would be, with the same number and place: 4, 5, 6, 7 for a piece and
 * 4, 9, 10 for a link; a number too large for its field in a record is refused like every other that is too
 * large, and never cut. Then 1, numbers left after the last whole row, and then 14. Rings are left to desk_plan.
 * Answer: number and place, bytes of the file.
 */
void desk_write(const uint32_t *pieces, size_t pieces_len, const uint32_t *links, size_t links_len,
                uint8_t *buffer, size_t buffer_len, int64_t answer[DESK_WRITE_ANSWER]);

#ifdef __cplusplus
}
#endif

#endif
