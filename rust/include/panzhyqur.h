/* Panzhyqur's gutter router for C: the calls of libpanzhyqur.a, which Rattle
 * proves. The rules that are named here (S15, E7 ..) are those of docs/RULES.md;
 * examples/route.c is a program to start from.
 *
 *     cc -std=c99 -I rust/include examples/route.c crates/panzhyqur/out/libpanzhyqur.a
 *
 * What holds of every call:
 *
 * - It takes any text and buffers of any length, and has no condition on what
 *   they hold. A sheet's text is bytes and a length: no byte 0 ends it.
 * - Each buffer is a pointer and, behind it, its length IN ROWS, not in bytes or
 *   numbers. The pointer is aligned for its row and not NULL, also for length 0.
 * - NO TWO BUFFERS OF A CALL MAY OVERLAP, the text included. Nothing tests this.
 * - A refusal is a number other than 0, with a place (E1 to E16, H6). It is
 *   decided before anything is written: the outputs are then as they were, and
 *   all counts of the answer are 0. Work space may have changed.
 * - Without a refusal the rows stand in front of each output, as many as the
 *   answer counts, and what stands behind them is as it was.
 * - No pointer is kept, nothing is allocated, there is no state: threads may
 *   call at once with buffers of their own.
 * - Tables of local numbers stand on the stack. The figure at each call is the
 *   least stack, to 4 KiB, of a thread that ran it on full boards; PZ_STACK_NEED is
 *   the one to plan with for all. Frames touch their pages in turn, so that with
 *   too little a thread ends at its guard page.
 *
 * What is said of refusals, answers and rows is proved of the Rattle source, for
 * every text and every length. The compiler's back end and this header are tested.
 */
#ifndef PANZHYQUR_H
#define PANZHYQUR_H

#include <stddef.h>
#include <stdint.h>

#ifdef __cplusplus
extern "C" {
#endif

/* Stands in a row for a number that is missing, and for the port of an end that
 * is a rerouter. */
#define PZ_MISSING UINT32_C(4294967295)

/* So many numbers of the hit buffer are lent for a wire; a rerouter hit is so
 * many of them: number, part, lane. */
#define PZ_HIT_NUMBERS 21
#define PZ_HIT_FIELDS 3

/* Six tables of work space beside the records; the marks, the last of them, have
 * so many rows for a record. */
#define PZ_TABLES 6
#define PZ_MARK_ROWS 5

/* Bytes of stack that should be free at a call. */
#define PZ_STACK_NEED 1048576

/* Refusals: what is wrong, and what the place is. In the order in which they are
 * tried, each on all lines. */
enum {
    PZ_UNREADABLE = 1,     /* a line can't be read: the line */
    PZ_OVER_MOST = 2,      /* more records of a section than may be: the line */
    PZ_OUT_OF_RANGE = 3,   /* a number outside its field's range: the line */
    PZ_ID_TWICE = 4,       /* a node or chip with the id of an earlier one: the line */
    PZ_NOT_THERE = 5,      /* its page, parent, chip or brick is not there: the line */
    PZ_ROW_UNPLACED = 6,   /* a node with page and down, without x and y: the line */
    PZ_TOO_SHORT = 7,      /* a lent buffer is shorter than named: 0 */
    PZ_TOO_MANY_LANES = 8, /* a page needs a 513th lane: the page's line */
    PZ_BAD_BOX = 9         /* the box's page is not there, or a range is none: 0 */
};

/* Rows of numbers of 32 bits. Coordinates are in two's complement: cast them to
 * int32_t. */
typedef uint32_t pz_rerouter_row[11]; /* x, y, z, rotation, role, part, colour, page, lane, row, depth */
typedef uint32_t pz_bus_wire_row[6];  /* from, its port, to, its port, a delivery's wire and distance */
typedef uint32_t pz_port_row[2];      /* node, port */
typedef uint32_t pz_page_row[2];      /* lanes, band */
typedef uint32_t pz_record_row[16];   /* section and fields of a record */
typedef uint32_t pz_table_row[8];     /* work space */

/* The answer of pz_allocate_lanes: refusal, 0 for none, its place, and the count
 * of lanes. */
typedef struct {
    size_t refusal;
    size_t place;
    size_t count;
} pz_lane_report;

/* The answer of pz_plan_bus: refusal, place, how many pages have their answer. */
typedef struct {
    size_t refusal;
    size_t place;
    size_t pages;
} pz_pages_numbers;

/* The answer of pz_lay_bus and pz_route: refusal, place, how many rows stand in
 * the outputs, how many groups were laid. */
typedef struct {
    size_t refusal;
    size_t place;
    size_t rerouters;
    size_t bus_wires;
    size_t ports;
    size_t groups;
} pz_plan_numbers;

/* How many rows stand in the outputs. */
typedef struct {
    size_t rerouters;
    size_t bus_wires;
    size_t ports;
} pz_bus_counts;

/* The answer of pz_lay_mini_bus: refusal, place, the counts after it. */
typedef struct {
    size_t refusal;
    size_t place;
    pz_bus_counts counts;
} pz_mini_numbers;

/* A page, and on it a range of x and one of y, in two's complement. */
typedef struct {
    uint32_t page;
    uint32_t x0;
    uint32_t x1;
    uint32_t y0;
    uint32_t y1;
} pz_page_box;

/* The answer of pz_find_hits: refusal, place, how many rerouters and bus wires
 * are hit, and what pz_route answers of the plan. */
typedef struct {
    size_t refusal;
    size_t place;
    size_t hit_rerouters;
    size_t hit_wires;
    size_t rerouters;
    size_t bus_wires;
    size_t ports;
    size_t groups;
} pz_hits_numbers;

/* How many records of each section: P, N, C, F, X, W. */
typedef struct {
    size_t records[6];
} pz_counts;

/* The answer of pz_check_sheet and pz_read_sheet: refusal, line, the counts. */
typedef struct {
    size_t refusal;
    size_t line;
    pz_counts counts;
} pz_sheet_numbers;

/* What the library takes of each section (S12), for `most` below. Calls without
 * a `most` hold to it. */
#define PZ_LIBRARY_MOST { { 64, 4096, 256, 4096, 4096, 8192 } }

/* The named lengths (S15, S16, H7), for P pages, W wires and n records of all
 * sections. A buffer may be longer; one that is shorter is refusal 7.
 *
 *     rerouters  5 W rows      records                              n rows
 *     bus_wires  6 W rows      facts, taps, groups, demands, keys   n rows each
 *     ports      W rows        marks                                5 n rows
 *     answers    P rows        hits                                 21 W numbers
 *
 * The last seven slices of a call, from records to marks, are work space: what
 * stands in them does not matter. */

/* Lanes for demands of four numbers each: first row, last row (up to 4,095),
 * consumers, order (up to 8,192). `demands_length` counts numbers, so it is four
 * for each. For k demands: k numbers of lanes, k rows of work and of spare.
 * Promise: lanes[i] is the lane of demand i by L2 to L4, and count the number of
 * lanes. Refusals 1, 2, 3, 7, 8; the place is a demand, from 0 (E15).
 * Stack: at most 20 KiB. */
pz_lane_report pz_allocate_lanes(
    const uint32_t *demands, size_t demands_length,
    uint32_t *lanes, size_t lanes_length,
    pz_table_row *work, size_t work_length,
    pz_table_row *spare, size_t spare_length);

/* Tests a sheet by itself: refusals 1 to 3 with at most `most` records of each
 * section, or how many there are. A board may then still be refused with 4 to 8.
 * Promise: the first refusal in the order of E9, and its first line.
 * Stack: at most 20 KiB. */
pz_sheet_numbers pz_check_sheet(
    const uint8_t *text, size_t text_length,
    pz_counts most);

/* The same, and a row for each line. A row has the section (0 for P to 5 for W)
 * and behind it the fields in the sheet's order, PZ_MISSING for `-`. x, y, z,
 * down and min_y stand there with 2,000,000 added. Promise: the rows of all
 * lines, or on a refusal none; 7 where rows has fewer than there are lines.
 * Stack: at most 20 KiB. */
pz_sheet_numbers pz_read_sheet(
    const uint8_t *text, size_t text_length,
    pz_counts most,
    pz_record_row *rows, size_t rows_length);

/* Lanes and band of every page. Promise: answers[p] is what rules G, D and L
 * decide for page p. Refusals 1 to 8.
 * Stack: 292 KiB. */
pz_pages_numbers pz_plan_bus(
    const uint8_t *text, size_t text_length,
    pz_page_row *answers, size_t answers_length,
    pz_record_row *records, size_t records_length,
    pz_table_row *facts, size_t facts_length,
    pz_table_row *taps, size_t taps_length,
    pz_table_row *groups, size_t groups_length,
    pz_table_row *demands, size_t demands_length,
    pz_table_row *keys, size_t keys_length,
    pz_table_row *marks, size_t marks_length);

/* The lanes laid: rerouters, bus wires and suppressed ports, without corners.
 * Promise: the rows that rules T, V and R decide. Refusals 1 to 8.
 * Stack: 724 KiB. */
pz_plan_numbers pz_lay_bus(
    const uint8_t *text, size_t text_length,
    pz_rerouter_row *rerouters, size_t rerouters_length,
    pz_bus_wire_row *bus_wires, size_t bus_wires_length,
    pz_port_row *ports, size_t ports_length,
    pz_record_row *records, size_t records_length,
    pz_table_row *facts, size_t facts_length,
    pz_table_row *taps, size_t taps_length,
    pz_table_row *groups, size_t groups_length,
    pz_table_row *demands, size_t demands_length,
    pz_table_row *keys, size_t keys_length,
    pz_table_row *marks, size_t marks_length);

/* Corners on top of the first `held` rows of the outputs: held is what pz_lay_bus
 * answered on the same text, or zeros. Promise: the rerouters and bus wires handed
 * in stay, behind them stand those that rules K decide; the ports handed in and
 * those of the corners are one set, by node and port. Refusals 1 to 8; 7 also
 * where held is over a buffer's length or leaves too little room (E16).
 * Stack: 640 KiB. */
pz_mini_numbers pz_lay_mini_bus(
    const uint8_t *text, size_t text_length,
    pz_bus_counts held,
    pz_rerouter_row *rerouters, size_t rerouters_length,
    pz_bus_wire_row *bus_wires, size_t bus_wires_length,
    pz_port_row *ports, size_t ports_length,
    pz_record_row *records, size_t records_length,
    pz_table_row *facts, size_t facts_length,
    pz_table_row *taps, size_t taps_length,
    pz_table_row *groups, size_t groups_length,
    pz_table_row *demands, size_t demands_length,
    pz_table_row *keys, size_t keys_length,
    pz_table_row *marks, size_t marks_length);

/* The three calls in order, over one reading of the sheet. Promise: the plan of
 * the rules, the same as the three leave, and demand 3 holds of it. Refusals 1
 * to 8.
 * Stack: 724 KiB. */
pz_plan_numbers pz_route(
    const uint8_t *text, size_t text_length,
    pz_rerouter_row *rerouters, size_t rerouters_length,
    pz_bus_wire_row *bus_wires, size_t bus_wires_length,
    pz_port_row *ports, size_t ports_length,
    pz_page_row *answers, size_t answers_length,
    pz_record_row *records, size_t records_length,
    pz_table_row *facts, size_t facts_length,
    pz_table_row *taps, size_t taps_length,
    pz_table_row *groups, size_t groups_length,
    pz_table_row *demands, size_t demands_length,
    pz_table_row *keys, size_t keys_length,
    pz_table_row *marks, size_t marks_length);

/* pz_route, and what of its plan lies under a box. In front of hits stand
 * number, part and lane of each rerouter hit (PZ_MISSING for no lane), by rising
 * number, and behind them the numbers of the bus wires hit, rising. Promise: each
 * that lies under the box by H2 and H3, and no other. Refusals 1 to 9.
 * Stack: 724 KiB. */
pz_hits_numbers pz_find_hits(
    const uint8_t *text, size_t text_length,
    pz_page_box page_box,
    uint32_t *hits, size_t hits_length,
    pz_rerouter_row *rerouters, size_t rerouters_length,
    pz_bus_wire_row *bus_wires, size_t bus_wires_length,
    pz_port_row *ports, size_t ports_length,
    pz_page_row *answers, size_t answers_length,
    pz_record_row *records, size_t records_length,
    pz_table_row *facts, size_t facts_length,
    pz_table_row *taps, size_t taps_length,
    pz_table_row *groups, size_t groups_length,
    pz_table_row *demands, size_t demands_length,
    pz_table_row *keys, size_t keys_length,
    pz_table_row *marks, size_t marks_length);

/* pz_route, and its plan sheet, or the E line of its refusal, as text in front of
 * said: how many bytes. Named for said are 128 (P + 12 W + 1) bytes; with fewer
 * it is an E line with 7; with under 128, or for a place above 4,294,967,294,
 * nothing is written and 0 answered.
 * Stack: 724 KiB. */
size_t pz_answer(
    const uint8_t *text, size_t text_length,
    uint8_t *said, size_t said_length,
    pz_rerouter_row *rerouters, size_t rerouters_length,
    pz_bus_wire_row *bus_wires, size_t bus_wires_length,
    pz_port_row *ports, size_t ports_length,
    pz_page_row *answers, size_t answers_length,
    pz_record_row *records, size_t records_length,
    pz_table_row *facts, size_t facts_length,
    pz_table_row *taps, size_t taps_length,
    pz_table_row *groups, size_t groups_length,
    pz_table_row *demands, size_t demands_length,
    pz_table_row *keys, size_t keys_length,
    pz_table_row *marks, size_t marks_length);

#ifdef __cplusplus
}
#endif

#endif
