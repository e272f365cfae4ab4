/* Renumbering (0F) on a block, by note 1 of document 02: the cells get the ids 1 to n in the order they have, every end, step
   and lone vertex is renamed, the next id is n + 1. Ends with 'N passed, M failed'. */
#include <stdio.h>
#include <string.h>

#include "dazolbei.h"

#define ZERO 0, 0, 0, 0, 0, 0, 0, 0, 0, 0, 0, 0, 0, 0, 0, 0

static const uint8_t vertex[] = {0x01, ZERO};

/* Vertices 2 and 3 (1 is deleted), edge 4 from 3 to 2, closed edge 5, and face 7 (6 is deleted). */
static const uint8_t script[] = {
    0x01, ZERO, 0x01, ZERO, 0x01, ZERO, 0x06, 0x01,       /* vertices 1 to 3, without 1 */
    0x02, 0x03, 0x02, 0x00,                               /* open edge 4 from 3 to 2 */
    0x03, 0x01, ZERO,                                     /* closed edge 5 */
    0x04, 0x00, 0x06, 0x06,                               /* face 6, and its end */
    0x04, 0x04, 0x00, 0x03, 0x00, 0x03, 0x02, 0x08, 0x09, /* face 7: vertex 3 alone twice, 4 there and back, */
    0x02, 0x0B, 0x0B,                                     /* and 5 twice round backward */
};

/* What the script's block holds after a renumbering. */
static const uint32_t ids[] = {1, 2, 3, 4, 5}, steps[] = {2, 2, 6, 7, 9, 9};

static dz_sheet sheet, again;
static uint32_t lines[DZ_LINE_WIDTH * sizeof script];
static uint8_t file[DZ_FILE_MOST], file_again[DZ_FILE_MOST];
static unsigned passed, failed;

static void must(int holds, const char *what)
{
    if (holds) {
        passed++;
        return;
    }
    failed++;
    printf("not so: %s\n", what);
}

/* Whether a command is done, with these counts. */
static int done(dz_sheet *s, const uint8_t *bytes, size_t length, uint32_t first, uint32_t fresh, uint32_t removed)
{
    uint32_t a = 77, b = 77, c = 77;
    return dz_sheet_command(s, bytes, length, &a, &b, &c) == 0 && a == first && b == fresh && c == removed;
}

static int32_t euler(void)
{
    int32_t value = 77;
    must(dz_sheet_euler(&sheet, &value) == 0, "Euler gets 0");
    return value;
}

static void renumbers(void)
{
    const uint8_t twice[] = {0x0F, 0x0F};
    uint32_t commands, star[4] = {77, 77, 77, 77}, found = 77, bytes = 77, bytes_again = 77;
    dz_sheet_new(&sheet);
    must(dz_sheet_run(&sheet, script, sizeof script, lines, sizeof lines / sizeof *lines, &commands) == 0, "the run gets 0");
    must(commands == 9 && sheet.next == 8 && sheet.count == 5 && sheet.ids[4] == 7, "the block before");
    int32_t before = euler();
    must(dz_sheet_rest(&sheet, twice, 2) == 1, "a renumbering has one byte");
    must(done(&sheet, twice, 2, 0, 0, 0), "0 and three times 0");
    must(sheet.next == 6 && sheet.count == 5 && memcmp(sheet.ids, ids, sizeof ids) == 0, "ids 1 to 5, next 6");
    must(sheet.starts[2] == 2 && sheet.ends[2] == 1, "the ends of the open edge");
    must(memcmp(sheet.steps, steps, sizeof steps) == 0, "steps and lone vertices");
    must(euler() == before, "the same Euler number");
    must(dz_sheet_star(&sheet, 2, star, 4, &found) == 0 && found == 2, "the star of the new id");
    must(star[0] == 3 && star[1] == 5 && star[2] == 77, "its ids");
    must(dz_sheet_star(&sheet, 7, star, 4, &found) == 4, "an id of before is dead");
    must(dz_sheet_write(&sheet, file, sizeof file, &bytes) == 0, "the file gets 0");
    must(done(&sheet, twice, 2, 0, 0, 0), "0 and three times 0 again");
    must(dz_sheet_write(&sheet, file_again, sizeof file_again, &bytes_again) == 0, "the file gets 0 again");
    must(bytes == bytes_again && memcmp(file, file_again, bytes) == 0, "nothing changes the second time");
    must(done(&sheet, vertex, sizeof vertex, 6, 1, 0), "the next new id is 6");
}

/* No cell: the next id is 1 again, also where no id was left. */
static void renumbers_none(void)
{
    const uint8_t renumber[] = {0x0F}, last[] = {0x80, 0x80, 0x04, 0x00};
    uint32_t first, fresh, removed;
    must(dz_sheet_open(&sheet, last, sizeof last) == 0, "the file with next id 65536");
    must(dz_sheet_command(&sheet, vertex, sizeof vertex, &first, &fresh, &removed) == 7, "no id is left");
    must(done(&sheet, renumber, 1, 0, 0, 0) && sheet.next == 1 && sheet.count == 0, "next id 1");
    must(done(&sheet, vertex, sizeof vertex, 1, 1, 0), "the vertex gets 1");
    /* A damaged block gets 1 and stays. */
    sheet.ids[0] = sheet.next;
    memcpy(&again, &sheet, sizeof sheet);
    must(dz_sheet_command(&sheet, renumber, 1, &first, &fresh, &removed) == 1, "a damaged block gets 1");
    must(first == 0 && fresh == 0 && removed == 0 && memcmp(&again, &sheet, sizeof sheet) == 0, "and stays as it was");
    must(dz_sheet_rest(&sheet, renumber, 1) == 1, "and the rest is all");
}

int main(void)
{
    renumbers();
    renumbers_none();
    printf("%u passed, %u failed\n", passed, failed);
    return failed != 0;
}
