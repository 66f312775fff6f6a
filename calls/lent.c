/*
 * What deskplan.h promises a program in C, tried out: NULL where a length is 0, the bytes of the job file's
 * records, one function that reads every refusal, and how much stack the calls take. What is expected was
 * worked out by hand from the rules page. The last line is 'N passed, M failed'.
 */
#define _XOPEN_SOURCE 600
#include <pthread.h>
#include <stdio.h>
#include <stdlib.h>
#include <string.h>

#include "deskplan.h"

enum { PAINT = 0xA5, PAINTED = 1 << 20 };

static int passed, failed;

static void expect(const char *what, int holds) {
    if (holds) {
        passed++;
    } else {
        failed++;
        printf("FAILED: %s\n", what);
    }
}

/* Whether an answer of so many numbers has this number and place, and zero in all others. */
static int answered(const int64_t *answer, size_t numbers, int64_t number, int64_t place) {
    for (size_t at = 2; at < numbers; at++)
        if (answer[at] != 0) return 0;
    return answer[DESK_NUMBER] == number && answer[DESK_PLACE] == place;
}

static const uint8_t piece[DESK_RECORD] = {DESK_PIECE_RECORD, 0, 1};
static const uint32_t piece_row[DESK_PIECE_ROW] = {0, 1, 0, 0};
static const uint32_t link_row[DESK_LINK_ROW] = {0, 0, 0};

static void null_files(void) {
    int64_t plan[DESK_PLAN_ANSWER], sheet[DESK_SHEET_ANSWER];
    uint64_t stretch[2];
    memset(plan, PAINT, sizeof plan);
    memset(sheet, PAINT, sizeof sheet);
    memset(stretch, PAINT, sizeof stretch);

    desk_plan(NULL, 0, NULL, 0, plan);
    expect("a plan of no file in no buffer", answered(plan, DESK_PLAN_ANSWER, DESK_ACCEPTED, 0));
    desk_plan(piece, sizeof piece, NULL, 0, plan);
    expect("a plan in no buffer", answered(plan, DESK_PLAN_ANSWER, DESK_BUFFER_TOO_SHORT, 0));
    desk_blocks(NULL, 0, 31, NULL, 0, sheet);
    expect("a sheet of no file in no buffer", answered(sheet, DESK_SHEET_ANSWER, DESK_ACCEPTED, 0));
    desk_blocks(NULL, 0, 32, NULL, 0, sheet);
    expect("a sheet of desk 32", answered(sheet, DESK_SHEET_ANSWER, DESK_ASKED_ABOVE_31, 0));
    desk_blocks(piece, sizeof piece, 0, NULL, 0, sheet);
    expect("a sheet in no buffer", answered(sheet, DESK_SHEET_ANSWER, DESK_BUFFER_TOO_SHORT, 0));
    desk_runs(NULL, 0, 0, stretch);
    expect("the runs of no records", stretch[0] == 0 && stretch[1] == 0);
}

static void null_texts(void) {
    static const char nothing[] = "total pieces 0 runs 0 end 0 worst 0\n";
    static uint8_t text[DESK_LISTING_ROOM];
    uint64_t written[1];

    desk_listing(NULL, 0, text, sizeof text, written);
    expect("the listing of no file", written[0] == 36 && memcmp(text, nothing, 36) == 0);
    desk_listing(NULL, 0, NULL, 0, written);
    expect("the listing of no file in no text", written[0] == 0);
    desk_listing(piece, sizeof piece, NULL, 0, written);
    expect("a listing in no text", written[0] == 0);
}

static void null_forms(void) {
    static uint8_t buffer[DESK_RECORD];
    int64_t file[DESK_WRITE_ANSWER];
    memset(file, PAINT, sizeof file);

    desk_write(NULL, 0, NULL, 0, NULL, 0, file);
    expect("a file of nothing in no buffer", answered(file, DESK_WRITE_ANSWER, DESK_ACCEPTED, 0));
    desk_write(piece_row, DESK_PIECE_ROW, NULL, 0, NULL, 0, file);
    expect("a file in no buffer", answered(file, DESK_WRITE_ANSWER, DESK_FILE_ROOM_SHORT, 0));
    desk_write(NULL, 0, link_row, DESK_LINK_ROW, buffer, sizeof buffer, file);
    expect("a link without pieces", answered(file, DESK_WRITE_ANSWER, DESK_NO_SUCH_PIECE, 0));
    desk_write(piece_row, DESK_PIECE_ROW, NULL, 0, buffer, sizeof buffer, file);
    expect("a file without links", file[DESK_NUMBER] == 0 && file[DESK_FILE_BYTES] == DESK_RECORD);
    expect("its record", memcmp(buffer, piece, sizeof piece) == 0);
}

/* The table of the header, byte by byte; 770 is 0x0302, 4,660 is 0x1234, 22,136 is 0x5678, 480 is 0x01E0. */
static void layout(void) {
    static const uint32_t pieces[2 * DESK_PIECE_ROW] = {3, 770, 4660, 22136, 31, 960, 40000, 0};
    static const uint32_t links[DESK_LINK_ROW] = {1, 0, 480};
    static const uint8_t expected[3 * DESK_RECORD] = {
        DESK_PIECE_RECORD, 3,  0x02, 0x03, 0x34, 0x12, 0, 0, 0x78, 0x56, 0, 0, 0, 0, 0, 0, /* piece 0 */
        DESK_PIECE_RECORD, 31, 0xC0, 0x03, 0x40, 0x9C, 0, 0, 0,    0,    0, 0, 0, 0, 0, 0, /* piece 1 */
        DESK_LINK_RECORD,  0,  0x01, 0,    0,    0,    0xE0, 0x01, 0, 0, 0, 0, 0, 0, 0, 0, /* 1 before 0 */
    };
    uint8_t made[3 * DESK_RECORD], buffer[2 * DESK_ROOM_FOR_A_PIECE];
    int64_t file[DESK_WRITE_ANSWER], plan[DESK_PLAN_ANSWER];

    desk_write(pieces, 2 * DESK_PIECE_ROW, links, DESK_LINK_ROW, made, sizeof made, file);
    expect("three records", file[DESK_NUMBER] == 0 && file[DESK_FILE_BYTES] == 3 * DESK_RECORD);
    expect("their bytes", memcmp(made, expected, sizeof expected) == 0);
    /* Each byte that counts, one too much in it: the highest bytes of release and due, the high byte of a number. */
    static const struct { size_t at; int64_t number, place; } wrong[] = {
        {1, DESK_DESK_ABOVE_31, 0},        {7, DESK_RELEASE_OR_DUE, 0},      {11, DESK_RELEASE_OR_DUE, 0},
        {12, DESK_NOT_ZERO, 0},            {15, DESK_NOT_ZERO, 0},           {32 + 1, DESK_NOT_ZERO, 2},
        {32 + 3, DESK_NO_SUCH_PIECE, 2},   {32 + 5, DESK_NO_SUCH_PIECE, 2},  {32 + 7, DESK_HANDOVER, 2},
        {32 + 8, DESK_NOT_ZERO, 2},        {32 + 15, DESK_NOT_ZERO, 2},      {0, DESK_KIND_UNKNOWN, 0},
    };
    for (size_t k = 0; k < sizeof wrong / sizeof *wrong; k++) {
        memcpy(made, expected, sizeof expected);
        made[wrong[k].at] |= 0x80;
        desk_plan(made, sizeof made, buffer, sizeof buffer, plan);
        expect("a byte too much", answered(plan, DESK_PLAN_ANSWER, wrong[k].number, wrong[k].place));
    }
}

/* A row cut short: the place counts the whole rows of pieces and of links together. */
static void cut_rows(void) {
    static const uint32_t pieces[5] = {0, 1, 0, 0, 7}, links[5] = {0, 0, 0, 7, 7};
    int64_t file[DESK_WRITE_ANSWER];

    desk_write(pieces, 5, links, DESK_LINK_ROW, NULL, 0, file);
    expect("a piece cut short", answered(file, DESK_WRITE_ANSWER, DESK_BYTES_LEFT, 2));
    desk_write(pieces, DESK_PIECE_ROW, links, 5, NULL, 0, file);
    expect("a link cut short", answered(file, DESK_WRITE_ANSWER, DESK_BYTES_LEFT, 2));
}

static uint8_t nested[DESK_MOST_PIECES * DESK_RECORD];

/* All calls on 256 pieces of which each interrupts the one before: no file cuts blocks deeper. */
static void *all_calls(void *unused) {
    static uint8_t buffer[DESK_ROOM], text[DESK_LISTING_ROOM], file[DESK_RECORD];
    int64_t answer[DESK_PLAN_ANSWER];
    uint64_t numbers[2];

    desk_blocks(nested, sizeof nested, 0, buffer, sizeof buffer, answer);
    desk_plan(nested, sizeof nested, buffer, sizeof buffer, answer);
    expect("each piece interrupts the one before", answer[DESK_RUNS] == 2 * DESK_MOST_PIECES - 1);
    desk_runs(buffer, sizeof buffer, 0, numbers);
    desk_listing(nested, sizeof nested, text, sizeof text, numbers);
    desk_write(piece_row, DESK_PIECE_ROW, NULL, 0, file, sizeof file, answer);
    return unused;
}

static void stack(void) {
    uint8_t *painted = aligned_alloc(4096, PAINTED);
    pthread_attr_t attributes;
    pthread_t thread;
    size_t free_bytes = 0;

    for (unsigned k = 0; k < DESK_MOST_PIECES; k++) {
        const uint8_t row[DESK_RECORD] = {DESK_PIECE_RECORD, 0, 2, 0, (uint8_t)k, 0, 0, 0, (uint8_t)(255 - k), 0x10};
        memcpy(nested + DESK_RECORD * k, row, sizeof row);
    }
    memset(painted, PAINT, PAINTED);
    pthread_attr_init(&attributes);
    pthread_attr_setstack(&attributes, painted, PAINTED);
    expect("a thread", pthread_create(&thread, &attributes, all_calls, NULL) == 0);
    pthread_join(thread, NULL);
    while (free_bytes < PAINTED && painted[free_bytes] == PAINT) free_bytes++;
    expect("the stack that the calls take", PAINTED - free_bytes <= DESK_STACK);
    expect("the stack was painted at all", free_bytes < PAINTED);
    free(painted);
}

int main(void) {
    null_files();
    null_texts();
    null_forms();
    layout();
    cut_rows();
    stack();
    printf("the calls from C: %d passed, %d failed\n", passed, failed);
    return failed != 0;
}
