/* Every call once, on the sheet that is named, with the buffers of
 * examples/route.c's lengths: prints the numbers of each answer. For tests/c.rs,
 * which makes the same calls from Rust. */
#include "panzhyqur.h"

#include <stdio.h>

/* Enough for the sheets of the test: 8 wires, 8 pages, 32 records. */
#define WIRES 8
#define PAGES 8
#define RECORDS 32
#define TEXT (128 * (PAGES + 12 * WIRES + 1))

static pz_rerouter_row rerouters[5 * WIRES];
static pz_bus_wire_row bus_wires[6 * WIRES];
static pz_port_row ports[WIRES];
static pz_page_row answers[PAGES];
static uint32_t hits[PZ_HIT_NUMBERS * WIRES];
static pz_record_row records[RECORDS];
static pz_table_row tables[PZ_TABLES - 1][RECORDS];
static pz_table_row marks[PZ_MARK_ROWS * RECORDS];
static uint8_t said[TEXT];

#define OUTPUT rerouters, 5 * WIRES, bus_wires, 6 * WIRES, ports, WIRES
#define WORK records, RECORDS, tables[0], RECORDS, tables[1], RECORDS, \
    tables[2], RECORDS, tables[3], RECORDS, tables[4], RECORDS, marks, PZ_MARK_ROWS * RECORDS

static void print(const char *name, const size_t *numbers, size_t count)
{
    size_t k;
    printf("%s", name);
    for (k = 0; k < count; k++) {
        printf(" %lu", (unsigned long)numbers[k]);
    }
    printf("\n");
}

static void print_rows(const char *name, const uint32_t *numbers, size_t count)
{
    size_t k;
    printf("%s", name);
    for (k = 0; k < count; k++) {
        printf(" %lu", (unsigned long)numbers[k]);
    }
    printf("\n");
}

/* All members of an answer are size_t, or structs of these. */
#define PRINT(name, answer) \
    print(name, (const size_t *)(const void *)&answer, sizeof answer / sizeof(size_t))

static void read_calls(const uint8_t *text, size_t length)
{
    const pz_counts most = PZ_LIBRARY_MOST;
    const pz_counts few = {{1, 2, 3, 4, 5, 1}};
    pz_sheet_numbers checked = pz_check_sheet(text, length, most);
    pz_sheet_numbers over = pz_check_sheet(text, length, few);
    pz_sheet_numbers read = pz_read_sheet(text, length, most, records, RECORDS);
    PRINT("check", checked);
    PRINT("over", over);
    PRINT("read", read);
    print_rows("row", records[1], 16);
}

static void lane_call(void)
{
    const uint32_t demands[8] = {0, 2, 1, 0, 2, 4, 1, 1};
    uint32_t lanes[2] = {7, 7};
    pz_lane_report report = pz_allocate_lanes(demands, 8, lanes, 2, tables[0], 2, tables[1], 2);
    PRINT("lanes", report);
    print_rows("lane", lanes, 2);
}

static void bus_calls(const uint8_t *text, size_t length)
{
    pz_pages_numbers pages = pz_plan_bus(text, length, answers, PAGES, WORK);
    pz_plan_numbers laid = pz_lay_bus(text, length, OUTPUT, WORK);
    pz_bus_counts held;
    pz_mini_numbers turned;
    pz_plan_numbers routed;
    held.rerouters = laid.rerouters;
    held.bus_wires = laid.bus_wires;
    held.ports = laid.ports;
    turned = pz_lay_mini_bus(text, length, held, OUTPUT, WORK);
    routed = pz_route(text, length, OUTPUT, answers, PAGES, WORK);
    PRINT("plan", pages);
    PRINT("lay", laid);
    PRINT("turn", turned);
    PRINT("route", routed);
}

static void hits_and_answer(const uint8_t *text, size_t length)
{
    pz_page_box box = {0, 11, 22, (uint32_t)-8, (uint32_t)-3};
    pz_hits_numbers found =
        pz_find_hits(text, length, box, hits, PZ_HIT_NUMBERS * WIRES, OUTPUT, answers, PAGES, WORK);
    size_t bytes = pz_answer(text, length, said, TEXT, OUTPUT, answers, PAGES, WORK);
    PRINT("hits", found);
    print_rows("hit", hits, PZ_HIT_FIELDS * found.hit_rerouters + found.hit_wires);
    PRINT("answer", bytes);
}

int main(int count, char **words)
{
    static uint8_t text[4096];
    FILE *file = count > 1 ? fopen(words[1], "rb") : NULL;
    size_t length = file != NULL ? fread(text, 1, sizeof text, file) : 0;
    read_calls(text, length);
    lane_call();
    bus_calls(text, length);
    hits_and_answer(text, length);
    return 0;
}
