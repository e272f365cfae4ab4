/* How many pieces a drawing falls into, by note 3 of document 02: two cells are linked if one is in the other's boundary, and
   so on through chains. Ends with 'N passed, M failed'. */
#include <stdio.h>
#include <string.h>

#include "dazolbei.h"

#define ZERO 0, 0, 0, 0, 0, 0, 0, 0, 0, 0, 0, 0, 0, 0, 0, 0

static const uint8_t vertex[] = {0x01, ZERO}, closed_edge[] = {0x03, 0x01, ZERO}, bare_face[] = {0x04, 0x00};

static dz_sheet sheet, before;
static uint8_t file[DZ_FILE_MOST];
static unsigned passed, failed;

static void must(int holds, const char *what)
{
    if (holds) {
        passed++;
        return;
    }
    failed++;
    printf("not so: %s\n", what);
}

/* What the block, and its file, are told: both the same, and the block is not written. */
static void told(uint32_t pieces, const char *what)
{
    uint32_t of_block = 77, of_file = 77, bytes = 0;
    memcpy(&before, &sheet, sizeof sheet);
    must(dz_sheet_pieces(&sheet, &of_block) == 0 && of_block == pieces, what);
    must(memcmp(&before, &sheet, sizeof sheet) == 0, "the block stays as it was");
    must(dz_sheet_write(&sheet, file, sizeof file, &bytes) == 0, "the file gets 0");
    must(dz_pieces(file, bytes, &of_file) == 0 && of_file == pieces, what);
}

static void run(const uint8_t *bytes, size_t length)
{
    uint32_t first, fresh, removed;
    must(dz_sheet_command(&sheet, bytes, length, &first, &fresh, &removed) == 0, "the command is done");
}

static void add(const uint8_t *bytes, size_t length, int times)
{
    while (times-- > 0) run(bytes, length);
}

/* So many vertices, from id 1 on, and nothing else. */
static void vertices(int count)
{
    memset(&sheet, 0, sizeof sheet);
    dz_sheet_new(&sheet);
    add(vertex, sizeof vertex, count);
}

static void cells_alone(void)
{
    vertices(0);
    told(0, "the empty drawing");
    run(closed_edge, sizeof closed_edge);
    told(1, "a closed edge alone");
    run(bare_face, sizeof bare_face);
    told(2, "and a face without cycles");
    run((const uint8_t[]){0x06, 0x01}, 2);
    told(1, "a face without cycles alone");
    run((const uint8_t[]){0x06, 0x02}, 2);
    told(0, "nothing again");
    vertices(256);
    told(256, "as many vertices as there may be");
}

static void islands(void)
{
    /* Vertices 1 to 4, edges 5 from 1 to 2 and 6 from 4 to 3. */
    vertices(4);
    run((const uint8_t[]){0x02, 0x01, 0x02, 0x00}, 4);
    run((const uint8_t[]){0x02, 0x04, 0x03, 0x00}, 4);
    told(2, "two islands");
    run((const uint8_t[]){0x02, 0x03, 0x03, 0x00}, 4);
    told(2, "a loop at one");
    run((const uint8_t[]){0x02, 0x02, 0x01, 0x00}, 4);
    told(2, "an edge beside the other's");
    run((const uint8_t[]){0x02, 0x03, 0x02, 0x00}, 4);
    told(1, "an edge between them");
    run((const uint8_t[]){0x06, 0x09}, 2);
    told(2, "without it");
    /* Face 10: edge 5 there and back, and vertex 4 alone. */
    run((const uint8_t[]){0x04, 0x02, 0x02, 0x0A, 0x0B, 0x00, 0x04}, 7);
    told(1, "a face that goes round one and has a vertex of the other");
}

static void faces(void)
{
    /* Face 3 of vertices 1 and 2 alone. */
    vertices(2);
    run((const uint8_t[]){0x04, 0x02, 0x00, 0x01, 0x00, 0x02}, 6);
    told(1, "a face with two lone vertices");
    run((const uint8_t[]){0x06, 0x03}, 2);
    told(2, "without the face");
    /* Face 4 of vertex 1 alone, twice. */
    run((const uint8_t[]){0x04, 0x02, 0x00, 0x01, 0x00, 0x01}, 6);
    told(2, "a face with one vertex alone, twice");
    run((const uint8_t[]){0x06, 0x04}, 2);
    told(2, "without that face");
    /* Closed edge 5 and face 6 that goes round it backward, twice. */
    run(closed_edge, sizeof closed_edge);
    told(3, "a closed edge beside them");
    run((const uint8_t[]){0x04, 0x01, 0x02, 0x0B, 0x0B}, 5);
    told(3, "a face round the closed edge");
    run((const uint8_t[]){0x0F}, 1);
    told(3, "renumbered");
    sheet.ids[sheet.count] = 1, sheet.kinds[sheet.count] = 9, sheet.steps[2] = 2, sheet.cycles[1] = 1;
    told(3, "places that are not in use");
}

/* A block that is not sound gets 1 and 0, and stays. */
static void damaged(const char *what)
{
    uint32_t pieces = 77;
    memcpy(&before, &sheet, sizeof sheet);
    must(dz_sheet_pieces(&sheet, &pieces) == 1 && pieces == 0, what);
    must(memcmp(&before, &sheet, sizeof sheet) == 0, "the block stays as it was");
    vertices(3);
}

static void refusals(void)
{
    vertices(3);
    sheet.ids[1] = 3;
    damaged("an id twice");
    sheet.next = 3;
    damaged("an id that is not below the next id");
    sheet.kinds[2] = 1, sheet.starts[2] = 1, sheet.ends[2] = 7;
    damaged("an end that is no vertex");
    sheet.count = 257;
    damaged("257 cells");
    sheet.count = 0, sheet.next = 0;
    damaged("next id 0 without a cell");
}

/* Files, among them those of docs/FORMAT.md. Bytes that are no sound drawing's file get 10 and 0. */
static void files(void)
{
    static const struct {
        size_t length;
        uint8_t bytes[8];
        uint32_t number, pieces;
    } rows[] = {
        {2, {0x01, 0x00}, 0, 0},
        {5, {0x02, 0x01, 0x01, 0x03, 0x00}, 0, 1},
        {8, {0x03, 0x02, 0x01, 0x03, 0x00, 0x02, 0x03, 0x00}, 0, 2},
        {3, {0x01, 0x00, 0x00}, 10, 0},
        {1, {0x01}, 10, 0},
        {2, {0x00, 0x00}, 10, 0},
        {5, {0x02, 0x01, 0x02, 0x03, 0x00}, 10, 0},
        {8, {0x03, 0x02, 0x02, 0x03, 0x00, 0x01, 0x03, 0x00}, 10, 0},
        {0, {0}, 10, 0},
    };
    for (size_t i = 0; i < sizeof rows / sizeof rows[0]; i++) {
        uint32_t pieces = 77;
        must(dz_pieces(rows[i].bytes, rows[i].length, &pieces) == rows[i].number, "the number of a file");
        must(pieces == rows[i].pieces, "the pieces of a file");
    }
}

int main(void)
{
    cells_alone();
    islands();
    faces();
    refusals();
    files();
    printf("%u passed, %u failed\n", passed, failed);
    return failed != 0;
}
