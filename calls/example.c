/*
 * A program that uses the planner from C. It makes the first sheet of the rules page from typed rows, plans
 * it, shows one desk's runs and block sheet, and then what refused files and forms give. What it prints is
 * stored in example.expected.
 */
#include <inttypes.h>
#include <stdio.h>

#include "deskplan.h"

static const uint32_t pieces[3 * DESK_PIECE_ROW] = {
    0, 4, 0, 20, /* piece 0: desk 0, duration 4, release 0, due 20 */
    0, 2, 1, 5,  /* piece 1: desk 0, duration 2, release 1, due 5 */
    1, 3, 0, 12, /* piece 2: desk 1, duration 3, release 0, due 12 */
};
static const uint32_t links[1 * DESK_LINK_ROW] = {0, 2, 2}; /* piece 0 before piece 2, handover 2 */
static const uint32_t on_desk_32[2 * DESK_PIECE_ROW] = {0, 4, 0, 20, 32, 2, 1, 5};

static unsigned two_bytes(const uint8_t *at) { return (unsigned)at[0] | (unsigned)at[1] << 8; }

static uint32_t four_bytes(const uint8_t *at) {
    return (uint32_t)two_bytes(at) | (uint32_t)two_bytes(at + 2) << 16;
}

/* A latest moment may lie below zero: its four bytes are two's complement. */
static int64_t signed_number(uint32_t bytes) { return (int64_t)bytes - ((int64_t)(bytes >> 31) << 32); }

static void print_record(const uint8_t *record) {
    unsigned desk = record[1], number = two_bytes(record + 2);
    uint32_t first = four_bytes(record + 4), second = four_bytes(record + 8), third = four_bytes(record + 12);

    switch (record[0]) {
    case DESK_RESULT_RECORD:
        printf("piece %u on desk %u: %" PRIu32 " to %" PRIu32 ", latest %" PRId64 "\n", number, desk, first,
               second, signed_number(third));
        break;
    case DESK_RUN_RECORD:
        printf("run on desk %u: piece %u, %" PRIu32 " to %" PRIu32 "\n", desk, number, first, second);
        break;
    case DESK_BLOCK_RECORD:
        printf("block on desk %u: %u pieces, %" PRIu32 " to %" PRIu32 "\n", desk, number, first, second);
        break;
    }
}

static void print_records(const uint8_t *records, size_t length) {
    for (size_t at = 0; at + DESK_RECORD <= length; at += DESK_RECORD) print_record(records + at);
}

static void print_file(const uint8_t *file, size_t length) {
    printf("file: %zu bytes\n", length);
    for (size_t at = 0; at < length; at++) printf("%02x%c", file[at], at % DESK_RECORD == 15 ? '\n' : ' ');
}

/* Number and place stand first in every answer. Gives whether the call was refused. */
static int refused(const char *what, const int64_t *answer) {
    if (answer[DESK_NUMBER] == DESK_ACCEPTED) return 0;
    printf("%s: refused %" PRId64 " at %" PRId64 "\n", what, answer[DESK_NUMBER], answer[DESK_PLACE]);
    return 1;
}

static void show_plan(const uint8_t *file, size_t length) {
    static uint8_t buffer[DESK_ROOM];
    int64_t plan[DESK_PLAN_ANSWER];
    uint64_t stretch[2];

    desk_plan(file, length, buffer, sizeof buffer, plan);
    if (refused("plan", plan)) return;
    size_t written = DESK_RECORD * (size_t)(plan[DESK_PIECES] + plan[DESK_RUNS]);
    printf("plan: %" PRId64 " pieces, %" PRId64 " runs, end %" PRId64 ", worst lateness %" PRId64 "\n",
           plan[DESK_PIECES], plan[DESK_RUNS], plan[DESK_END], plan[DESK_WORST]);
    print_records(buffer, written);

    desk_runs(buffer, written, 1, stretch);
    printf("desk 1 has bytes %" PRIu64 " to %" PRIu64 " of the plan\n", stretch[0], stretch[1]);
    print_records(buffer + stretch[0], (size_t)(stretch[1] - stretch[0]));
}

static void show_sheet(const uint8_t *file, size_t length) {
    static uint8_t buffer[DESK_ROOM];
    int64_t sheet[DESK_SHEET_ANSWER];

    desk_blocks(file, length, 0, buffer, sizeof buffer, sheet);
    if (refused("sheet", sheet)) return;
    printf("sheet of desk 0: %" PRId64 " blocks, %" PRId64 " runs, worst lateness %" PRId64 "\n",
           sheet[DESK_SHEET_BLOCKS], sheet[DESK_SHEET_RUNS], sheet[DESK_SHEET_WORST]);
    print_records(buffer, DESK_RECORD * (size_t)(sheet[DESK_SHEET_BLOCKS] + sheet[DESK_SHEET_RUNS]));
}

int main(void) {
    static uint8_t p1[4 * DESK_RECORD], buffer[DESK_ROOM];
    static const uint8_t zeros[17] = {0};
    int64_t plan[DESK_PLAN_ANSWER], file[DESK_WRITE_ANSWER];

    desk_write(pieces, 3 * DESK_PIECE_ROW, links, 1 * DESK_LINK_ROW, p1, sizeof p1, file);
    if (refused("file", file)) return 1;
    print_file(p1, (size_t)file[DESK_FILE_BYTES]);
    show_plan(p1, sizeof p1);
    show_sheet(p1, sizeof p1);

    desk_plan(zeros, sizeof zeros, buffer, sizeof buffer, plan);
    refused("17 zero bytes", plan);
    desk_plan(p1, sizeof p1, buffer, 3 * DESK_ROOM_FOR_A_PIECE - 1, plan);
    refused("a buffer one byte short", plan);
    desk_write(on_desk_32, 2 * DESK_PIECE_ROW, NULL, 0, buffer, sizeof buffer, file);
    refused("a form with desk 32", file);
    desk_write(pieces, 3 * DESK_PIECE_ROW, NULL, 0, buffer, 3 * DESK_RECORD - 1, file);
    refused("a file one byte too long", file);
    return 0;
}
