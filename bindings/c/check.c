/* The soundness test as a call of its own, by note 2 of document 02: it ends at the first fault and counts the cells visited,
   those looked up for another's sake left out. Ends with 'N passed, M failed'. */
#include <math.h>
#include <stdio.h>
#include <string.h>

#include "dazolbei.h"

#define ZERO 0, 0, 0, 0, 0, 0, 0, 0, 0, 0, 0, 0, 0, 0, 0, 0

/* Next id 9: face 2 (edge 4 there and back, vertex 3 alone, closed edge 6 twice), vertex 3, open edge 4 from 3 to 5, vertex 5,
   closed edge 6 with two bends, face 8 (vertex 5 alone). */
static const uint8_t file[] = {
    0x09, 0x06,
    0x02, 0x03, 0x03, 0x02, 0x08, 0x09, 0x00, 0x03, 0x02, 0x0C, 0x0C,
    0x03, 0x00, ZERO,
    0x04, 0x01, 0x03, 0x05, 0x00,
    0x05, 0x00, ZERO,
    0x06, 0x02, 0x02, ZERO, ZERO,
    0x08, 0x03, 0x01, 0x00, 0x05,
};

/* The rows of the block. */
enum { FACE, FIRST, EDGE, SECOND, RING, LAST, CELLS };

static dz_sheet sheet, before;
static uint8_t bytes[DZ_FILE_MOST];
static unsigned passed, failed;

static void must(int holds, const char *what)
{
    if (holds) {
        passed++;
        return;
    }
    failed++;
    printf("not so: %s\n", what);
}

/* The undamaged block, 0 in the places that are not in use. */
static void undamaged(void)
{
    memset(&sheet, 0, sizeof sheet);
    must(dz_sheet_open(&sheet, file, sizeof file) == 0, "the file opens");
}

/* What the block as it stands is told, and that it is not written. Then it is undamaged again. */
static void told(uint32_t sound, uint32_t visited, const char *what)
{
    uint32_t is_sound = 77, cells = 77;
    int32_t value;
    memcpy(&before, &sheet, sizeof sheet);
    dz_sheet_check(&sheet, &is_sound, &cells);
    must(is_sound == sound && cells == visited, what);
    must(dz_sheet_euler(&sheet, &value) == !sound, "question 1 says the same");
    must(memcmp(&before, &sheet, sizeof sheet) == 0, "the block stays as it was");
    undamaged();
}

static void sound_blocks(void)
{
    undamaged();
    told(1, CELLS, "all cells of a sound block");
    sheet.ids[CELLS] = 1, sheet.kinds[CELLS] = 9, sheet.px[EDGE] = NAN;
    told(1, CELLS, "places that are not in use");
    dz_sheet_new(&sheet);
    told(1, 0, "the empty drawing");
    sheet.next = 65536;
    told(1, CELLS, "the last next id");
}

static void bounds(void)
{
    dz_sheet_new(&sheet);
    sheet.next = 0;
    told(0, 0, "next id 0 without a cell");
    sheet.next = 65537;
    told(0, 0, "next id 65537");
    sheet.count = 257;
    told(0, 0, "257 cells");
    sheet.count = SIZE_MAX;
    told(0, 0, "as many cells as can be told");
}

static void rules(void)
{
    sheet.py[FIRST] = NAN;
    told(0, FIRST + 1, "a coordinate that is none");
    sheet.px[SECOND] = 1048577.0, sheet.bends[RING] = 0;
    told(0, SECOND + 1, "two faults: the first");
    sheet.ends[EDGE] = 7;
    /* The face passes the edge there and back, and so still joins: the edge is not at fault before its turn. */
    told(0, EDGE + 1, "an end that is no vertex");
    sheet.starts[RING] = 3;
    told(0, RING + 1, "a number that the kind does not use");
    sheet.kinds[LAST] = 4;
    told(0, LAST + 1, "a kind that there is not");
    sheet.steps[1] = 8;
    told(0, FACE + 1, "steps that do not join");
}

static void ids(void)
{
    sheet.next = 8;
    told(0, LAST + 1, "an id that is not below the next id");
    sheet.ids[SECOND] = 3;
    told(0, EDGE + 1, "the edge's end is dead now");
    sheet.ends[EDGE] = 3, sheet.ids[SECOND] = 4;
    told(0, SECOND + 1, "an id twice: the later cell, and 4 means the edge");
    sheet.ids[RING] = 3;
    told(0, FACE + 1, "the face's closed edge is dead now");
    sheet.ids[LAST] = 3;
    told(0, LAST + 1, "an id that falls: the later cell");
    sheet.ids[FACE] = 0;
    told(0, FACE + 1, "id 0");
}

static void totals(void)
{
    sheet.bends[EDGE] = 2046;
    told(1, CELLS, "2048 bends");
    sheet.bends[EDGE] = 2047;
    told(0, RING + 1, "the bend after them");
    sheet.bends[EDGE] = UINT32_MAX;
    told(0, EDGE + 1, "bends past the array");
    sheet.counts[FACE] = UINT32_MAX;
    told(0, FACE + 1, "cycles past the array");
    sheet.cycles[3] = UINT32_MAX;
    told(0, LAST + 1, "steps past the array");
}

/* What bytes are told. */
static void of_bytes(size_t length, uint32_t number, uint32_t sound, uint32_t visited, const char *what)
{
    uint32_t is_sound = 77, cells = 77;
    must(dz_check(bytes, length, &is_sound, &cells) == number && is_sound == sound && cells == visited, what);
}

/* The rows of docs/FORMAT.md. */
static void page(void)
{
    static const struct {
        size_t length;
        uint8_t bytes[10];
        uint32_t number, sound, visited;
    } rows[] = {
        {2, {0x01, 0x00}, 0, 1, 0},
        {2, {0x00, 0x00}, 0, 0, 0},
        {8, {0x03, 0x02, 0x02, 0x03, 0x00, 0x01, 0x03, 0x00}, 0, 0, 2},
        {10, {0x03, 0x02, 0x01, 0x01, 0x02, 0x02, 0x00, 0x02, 0x03, 0x00}, 0, 0, 1},
        {5, {0x02, 0x01, 0x02, 0x03, 0x00}, 0, 0, 1},
        {6, {0x03, 0x02, 0x01, 0x03, 0x00, 0x02}, 10, 0, 0},
    };
    for (size_t i = 0; i < sizeof rows / sizeof rows[0]; i++) {
        memcpy(bytes, rows[i].bytes, rows[i].length);
        of_bytes(rows[i].length, rows[i].number, rows[i].sound, rows[i].visited, "a row of docs/FORMAT.md");
    }
}

static void files(void)
{
    memcpy(bytes, file, sizeof file);
    of_bytes(sizeof file, 0, 1, CELLS, "the file");
    of_bytes(sizeof file - 1, 10, 0, 0, "a byte too few");
    of_bytes(sizeof file + 1, 10, 0, 0, "a byte too many");
    of_bytes(0, 10, 0, 0, "no byte");
    bytes[0] = 0x00;
    of_bytes(sizeof file, 0, 0, 0, "next id 0");
    bytes[0] = 0x05;
    of_bytes(sizeof file, 0, 0, SECOND + 1, "ids that are not below the next id");
    bytes[0] = 0x09, bytes[3] = 0x04;
    of_bytes(sizeof file, 10, 0, 0, "no kind of a file");
    bytes[0] = 0x01, bytes[1] = 0x00;
    of_bytes(2, 0, 1, 0, "the empty drawing's file");
    /* Next id 65535, 257 faces without cycles. */
    memcpy(bytes, "\xFF\xFF\x03\x81\x02", 5);
    for (size_t i = 0; i < 257; i++) memcpy(bytes + 5 + 3 * i, "\x01\x03", 3);
    of_bytes(5 + 3 * 257, 10, 0, 0, "more cells than a block holds");
    memcpy(bytes + 3, "\x80\x02", 2);
    of_bytes(5 + 3 * 256, 0, 0, 2, "256 cells of one id");
}

int main(void)
{
    sound_blocks();
    bounds();
    rules();
    ids();
    totals();
    page();
    files();
    printf("%u passed, %u failed\n", passed, failed);
    return failed != 0;
}
