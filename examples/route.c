/* Routes a board sheet from C: route [FILE], by default a.sheet. Prints the plan
 * sheet, made from the rows that the library leaves, or the line E, number and
 * place of a refusal. From the repository's root:
 *
 *     cc -std=c99 -I rust/include -o target/route examples/route.c crates/panzhyqur/out/libpanzhyqur.a
 *     target/route examples/a.sheet
 */
#include "panzhyqur.h"

#include <inttypes.h>
#include <stdio.h>
#include <stdlib.h>

/* Everything that a call is lent. A server makes it once, for the most that it
 * takes, and uses it again. */
typedef struct {
    pz_rerouter_row *rerouters;
    pz_bus_wire_row *bus_wires;
    pz_port_row *ports;
    pz_page_row *answers;
    pz_record_row *records;
    pz_table_row *tables[PZ_TABLES]; /* facts, taps, groups, demands, keys, marks */
    size_t pages;
    size_t wires;
    size_t all; /* records of every section */
} lent;

/* A block of rows, at least one, so that it is never NULL. */
static void *rows(size_t count, size_t width)
{
    void *block = calloc(count > 0 ? count : 1, width);
    if (block == NULL) {
        fprintf(stderr, "no memory for %lu rows\n", (unsigned long)count);
        exit(2);
    }
    return block;
}

/* The named lengths for a sheet's counts. */
static lent lend(pz_counts counts)
{
    lent l;
    size_t k;
    l.pages = counts.records[0];
    l.wires = counts.records[5];
    l.all = 0;
    for (k = 0; k < 6; k++) {
        l.all += counts.records[k];
    }
    l.rerouters = rows(5 * l.wires, sizeof *l.rerouters);
    l.bus_wires = rows(6 * l.wires, sizeof *l.bus_wires);
    l.ports = rows(l.wires, sizeof *l.ports);
    l.answers = rows(l.pages, sizeof *l.answers);
    l.records = rows(l.all, sizeof *l.records);
    for (k = 0; k < PZ_TABLES; k++) {
        size_t each = k == PZ_TABLES - 1 ? PZ_MARK_ROWS : 1;
        l.tables[k] = rows(each * l.all, sizeof *l.tables[k]);
    }
    return l;
}

static void give_back(lent *l)
{
    size_t k;
    free(l->rerouters);
    free(l->bus_wires);
    free(l->ports);
    free(l->answers);
    free(l->records);
    for (k = 0; k < PZ_TABLES; k++) {
        free(l->tables[k]);
    }
}

static pz_plan_numbers route(const uint8_t *text, size_t length, lent *l)
{
    return pz_route(
        text, length,
        l->rerouters, 5 * l->wires,
        l->bus_wires, 6 * l->wires,
        l->ports, l->wires,
        l->answers, l->pages,
        l->records, l->all,
        l->tables[0], l->all,
        l->tables[1], l->all,
        l->tables[2], l->all,
        l->tables[3], l->all,
        l->tables[4], l->all,
        l->tables[5], PZ_MARK_ROWS * l->all);
}

/* A tab and a number, or - where it is missing. */
static void put(uint32_t number)
{
    if (number == PZ_MISSING) {
        printf("\t-");
    } else {
        printf("\t%" PRIu32, number);
    }
}

/* A coordinate: two's complement. */
static void put_place(uint32_t number)
{
    printf("\t%" PRId32, (int32_t)number);
}

/* Number, x, y, z, rotation, role, part, colour, page, lane, depth: a rerouter's
 * row, the tenth number of a row, is not printed. */
static void put_rerouter(size_t number, const uint32_t *r)
{
    size_t k;
    printf("R\t%lu", (unsigned long)number);
    for (k = 0; k < 3; k++) {
        put_place(r[k]);
    }
    for (k = 3; k < 9; k++) {
        put(r[k]);
    }
    put(r[10]);
    printf("\n");
}

/* An end is a rerouter, where it has no port, or the port of a node. */
static void put_end(uint32_t end, uint32_t port)
{
    printf(port == PZ_MISSING ? "\tb" : "\tp");
    put(end);
    put(port);
}

static void print_plan(const lent *l, pz_plan_numbers plan)
{
    size_t i, deliveries = 0;
    for (i = 0; i < l->pages; i++) {
        printf("L\t%lu", (unsigned long)i);
        put(l->answers[i][0]);
        put(l->answers[i][1]);
        printf("\n");
    }
    for (i = 0; i < plan.rerouters; i++) {
        put_rerouter(i, l->rerouters[i]);
    }
    for (i = 0; i < plan.bus_wires; i++) {
        const uint32_t *b = l->bus_wires[i];
        printf("B");
        put_end(b[0], b[1]);
        put_end(b[2], b[3]);
        put(b[4]);
        put(b[5]);
        printf("\n");
        deliveries += b[4] != PZ_MISSING;
    }
    for (i = 0; i < plan.ports; i++) {
        printf("U\t%" PRIu32 "\t%" PRIu32 "\n", l->ports[i][0], l->ports[i][1]);
    }
    printf("T\t%lu\t%lu\t%lu\t%lu\t%lu\n",
        (unsigned long)plan.rerouters, (unsigned long)plan.bus_wires,
        (unsigned long)deliveries, (unsigned long)(l->wires - deliveries),
        (unsigned long)plan.groups);
}

/* All bytes of a file; its length in *length. */
static uint8_t *read_file(const char *name, size_t *length)
{
    FILE *file = fopen(name, "rb");
    size_t room = 65536, got;
    uint8_t *text = rows(room, 1);
    *length = 0;
    if (file == NULL) {
        fprintf(stderr, "%s can't be read\n", name);
        exit(2);
    }
    while ((got = fread(text + *length, 1, room - *length, file)) > 0) {
        *length += got;
        if (*length == room) {
            room *= 2;
            text = realloc(text, room);
            if (text == NULL) {
                fprintf(stderr, "no memory for %s\n", name);
                exit(2);
            }
        }
    }
    fclose(file);
    return text;
}

static int refused(size_t number, size_t place)
{
    printf("E\t%lu\t%lu\n", (unsigned long)number, (unsigned long)place);
    return 1;
}

int main(int count, char **words)
{
    const pz_counts most = PZ_LIBRARY_MOST;
    size_t length;
    uint8_t *text = read_file(count > 1 ? words[1] : "a.sheet", &length);
    pz_sheet_numbers sheet = pz_check_sheet(text, length, most);
    int status = 0;
    if (sheet.refusal != 0) {
        status = refused(sheet.refusal, sheet.line);
    } else {
        lent l = lend(sheet.counts);
        pz_plan_numbers plan = route(text, length, &l);
        if (plan.refusal != 0) {
            status = refused(plan.refusal, plan.place);
        } else {
            print_plan(&l, plan);
        }
        give_back(&l);
    }
    free(text);
    return status;
}
