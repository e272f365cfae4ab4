/* Document 01's worked example on a block: five commands on the empty drawing, a line of numbers each, then the Euler number
   and the count of live cells. Then the same as one script from file to file, which must end at the same file. */
#include <stdio.h>
#include <string.h>

#include "dazolbei.h"

static const uint8_t empty[] = {0x01, 0x00};

static const uint8_t script[] = {
    0x01, 0, 0, 0, 0, 0, 0, 0, 0, 0, 0, 0, 0, 0, 0, 0, 0, /* vertex 1 at zero */
    0x02, 0x01, 0x01, 0x00,                               /* open edge 2 from 1 to 1 */
    0x04, 0x01, 0x01, 0x04,                               /* face 3, whose cycle is edge 2 */
    0x0A, 0x02, 0x00,                                     /* cut edge 2 halfway */
    0x0E, 0x04,                                           /* uncut vertex 4 */
};

static dz_sheet sheet;
static uint32_t lines[DZ_LINE_WIDTH * sizeof script];
static uint8_t file[DZ_FILE_MOST], again[DZ_FILE_MOST];

/* Runs the script's commands one by one and prints the four numbers of each. */
static void edit(void)
{
    const uint8_t *left = script;
    size_t length = sizeof script;
    dz_sheet_new(&sheet);
    while (length > 0) {
        uint32_t first, fresh, removed;
        size_t rest = dz_sheet_rest(&sheet, left, length);
        uint32_t number = dz_sheet_command(&sheet, left, length, &first, &fresh, &removed);
        printf("%u %u %u %u\n", (unsigned)number, (unsigned)first, (unsigned)fresh, (unsigned)removed);
        if (number == 2) return;
        left += length - rest;
        length = rest;
    }
}

/* Refuses to go on after a no. */
static int done(const char *what, uint32_t number)
{
    if (number != 0) fprintf(stderr, "%s: %u\n", what, (unsigned)number);
    return number == 0;
}

int main(void)
{
    int32_t euler;
    uint32_t bytes, commands, length, sound, visited;
    edit();
    if (!done("dz_sheet_euler", dz_sheet_euler(&sheet, &euler))) return 1;
    printf("euler %d cells %u\n", (int)euler, (unsigned)sheet.count);
    if (!done("dz_sheet_write", dz_sheet_write(&sheet, file, sizeof file, &bytes))) return 1;
    if (!done("dz_run", dz_run(empty, sizeof empty, script, sizeof script, lines, sizeof lines / sizeof *lines,
                               again, sizeof again, &commands, &length)))
        return 1;
    printf("%u commands, %s file\n", (unsigned)commands,
           length == bytes && memcmp(file, again, bytes) == 0 ? "the same" : "another");
    /* A damaged block gets 1, and the soundness test tells how many cells there are up to the first fault. */
    sheet.ids[1] = sheet.next;
    printf("damaged: %u", (unsigned)dz_sheet_euler(&sheet, &euler));
    dz_sheet_check(&sheet, &sound, &visited);
    printf(", %s, %u visited\n", sound ? "sound" : "not sound", (unsigned)visited);
    return 0;
}
