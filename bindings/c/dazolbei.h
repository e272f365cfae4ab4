/* The proved core of the boundary register. `rt lib` in crates/dazolbei writes crates/dazolbei/out/libdazolbei.a.

   A drawing is held in a block of the caller's memory, a dz_sheet, that the functions dz_sheet_... edit in place; or it
   crosses as its file, with the other functions. The empty drawing's file is the two bytes 01 00. Every function is proved
   to do what its comment says, whatever the block, the bytes, numbers and lengths, and to end; it keeps nothing between
   calls.

   A function (but for new, rest and check on a block) returns a number: 0 for done, or that of the first question of
   document 01 that it answers no:
     1  is the drawing sound?
     2  do the bytes begin with a whole command, kind and every number well spelled?
     3  is every coordinate in bounds?
     4  is every cell named live and of a kind the command takes?
     5  is every count, place, flag, cycle and corner one that exists?
     6  do cycles join, and does the rule of the command hold?
     7  do the ids suffice?
     8  does the result keep the ceilings?
     9  is the lent buffer long enough?
    10  are the bytes, all of them, a sound drawing's file?
   With a no every count and value is 0, save the count that 9 gives to star and write, and neither the block nor a lent
   buffer is written. A call that is done writes the first places of a buffer that it needs and leaves the others.

   What a caller owes: a pointer with a length is aligned, not null even if the length is 0, and good for that many
   elements; a pointer to a block or to a result is aligned and good for one; nothing that is written overlaps what another
   argument points to, and no other thread touches it during the call. The functions may run in several threads at once.
   They use less than DZ_STACK bytes of stack. */
#ifndef DAZOLBEI_H
#define DAZOLBEI_H

#include <stddef.h>
#include <stdint.h>

#ifdef __cplusplus
extern "C" {
#endif

/* The most bytes of a sound drawing's file, and the most ids of a star. */
#define DZ_FILE_MOST 65536
#define DZ_STAR_MOST 256

/* How many numbers a run tells of a command. */
#define DZ_LINE_WIDTH 5

/* The stack that a call may use. */
#define DZ_STACK (256 * 1024)

/* ---- A drawing in the caller's memory.

   The memory of one drawing. It has no pointer in it: it may be copied, moved and kept as its bytes. Any contents may be
   handed over; those of no sound drawing get 1, and dz_sheet_check tells the first cell at fault. The first `count` places
   of ids to py are the cells by rising id. The places behind those in use may hold anything, and a call that is done may
   change them. */
typedef struct dz_sheet {
    uint32_t next;        /* the next id */
    size_t count;         /* how many cells there are */
    uint32_t ids[256];    /* the id of a cell */
    uint32_t kinds[256];  /* 0 a vertex, 1 an open edge, 2 a closed edge, 3 a face */
    uint32_t starts[256]; /* the vertex where an open edge starts; 0 for the other kinds */
    uint32_t ends[256];   /* the vertex where an open edge ends; 0 for the other kinds */
    uint32_t bends[256];  /* how many bends an edge has; 0 for the other kinds */
    uint32_t counts[256]; /* how many cycles a face has; 0 for the other kinds */
    double px[256];       /* where a vertex is; not read for the other kinds */
    double py[256];
    uint32_t cycles[512]; /* how many steps a cycle has, the cycles of one face after another; 0 is a vertex alone */
    uint32_t steps[2048]; /* twice the edge, and one more if it is passed backward; or the vertex alone */
    double bx[2048];      /* the bends of one edge after another */
    double by[2048];
} dz_sheet;

/* The bytes of a block. */
#define DZ_SHEET_SIZE 53264
typedef char dz_sheet_has_its_size[sizeof(dz_sheet) == DZ_SHEET_SIZE ? 1 : -1];

/* The functions of the library on a block, which take its parts one by one. Use the dz_sheet_... below. */
#define DZ_EDITED                                                                                                     \
    uint32_t *next, size_t *count, uint32_t *ids, uint32_t *kinds, uint32_t *starts, uint32_t *ends, uint32_t *bends, \
        uint32_t *counts, double *px, double *py, uint32_t *cycles, uint32_t *steps, double *bx, double *by
#define DZ_READ                                                                                                        \
    uint32_t next, size_t count, const uint32_t *ids, const uint32_t *kinds, const uint32_t *starts,                   \
        const uint32_t *ends, const uint32_t *bends, const uint32_t *counts, const double *px, const double *py,       \
        const uint32_t *cycles, const uint32_t *steps, const double *bx, const double *by

void dz_block_new(uint32_t *next, size_t *count);
uint32_t dz_block_open(DZ_EDITED, const uint8_t *file, size_t file_length);
uint32_t dz_block_command(DZ_EDITED, const uint8_t *script, size_t script_length,
                          uint32_t *first, uint32_t *fresh, uint32_t *removed);
size_t dz_block_rest(DZ_READ, const uint8_t *script, size_t script_length);
uint32_t dz_block_run(DZ_EDITED, const uint8_t *script, size_t script_length,
                      uint32_t *lines, size_t lines_length, uint32_t *commands);
uint32_t dz_block_star(DZ_READ, uint32_t id, uint32_t *buffer, size_t buffer_length, uint32_t *found);
uint32_t dz_block_euler(DZ_READ, int32_t *value);
void dz_block_check(DZ_READ, uint32_t *sound, uint32_t *visited);
uint32_t dz_block_pieces(DZ_READ, uint32_t *pieces);
uint32_t dz_block_write(DZ_READ, uint8_t *buffer, size_t buffer_length, uint32_t *bytes);

#undef DZ_EDITED
#undef DZ_READ
#define DZ_EDITED(s)                                                                                                   \
    &(s)->next, &(s)->count, (s)->ids, (s)->kinds, (s)->starts, (s)->ends, (s)->bends, (s)->counts, (s)->px, (s)->py,  \
        (s)->cycles, (s)->steps, (s)->bx, (s)->by
#define DZ_READ(s)                                                                                                     \
    (s)->next, (s)->count, (s)->ids, (s)->kinds, (s)->starts, (s)->ends, (s)->bends, (s)->counts, (s)->px, (s)->py,    \
        (s)->cycles, (s)->steps, (s)->bx, (s)->by

/* Makes the block hold the empty drawing. What it held is not asked. */
static inline void dz_sheet_new(dz_sheet *sheet)
{
    dz_block_new(&sheet->next, &sheet->count);
}

/* Makes the block hold the drawing of a file. What it held is not asked. Asks 10. */
static inline uint32_t dz_sheet_open(dz_sheet *sheet, const uint8_t *file, size_t file_length)
{
    return dz_block_open(DZ_EDITED(sheet), file, file_length);
}

/* Runs the command that the script begins with: the first new id (0 if there is none), the count of new ids, the count of
   removed ids. Asks 1 to 8. A renumbering (0F) asks 1 and 2 and gives three times 0; after it the cells have the ids 1 to
   count, and ids from before mean nothing. */
static inline uint32_t dz_sheet_command(dz_sheet *sheet, const uint8_t *script, size_t script_length,
                                        uint32_t *first, uint32_t *fresh, uint32_t *removed)
{
    return dz_block_command(DZ_EDITED(sheet), script, script_length, first, fresh, removed);
}

/* Returns how many bytes of the script are left after the command that it begins with; all of them if the command gets 1
   or 2. */
static inline size_t dz_sheet_rest(const dz_sheet *sheet, const uint8_t *script, size_t script_length)
{
    return dz_block_rest(DZ_READ(sheet), script, script_length);
}

/* Runs the script's commands, each on the drawing that the one before it gave, until no byte is left or a command gets 2. A
   command that gets 3 to 8 leaves the drawing as it was, and the run goes on behind it.
   Of each command five numbers go to the lines, one command after another: its number, the first new id, the count of
   new ids, the count of removed ids, and how many bytes of the script are left after it. *commands counts the commands.
   Asks 1, then 9: the lines must have DZ_LINE_WIDTH places for each byte of the script, and the script at most
   4,294,967,295 bytes. The returned number is the call's: 0 does not mean that every command was done. */
static inline uint32_t dz_sheet_run(dz_sheet *sheet, const uint8_t *script, size_t script_length,
                                    uint32_t *lines, size_t lines_length, uint32_t *commands)
{
    return dz_block_run(DZ_EDITED(sheet), script, script_length, lines, lines_length, commands);
}

/* The star of a cell: the ids, rising, of the cells whose boundary holds it. They go to the first places of the buffer,
   their count to *found, also at 9. Asks 1, 4, 9. */
static inline uint32_t dz_sheet_star(const dz_sheet *sheet, uint32_t id, uint32_t *buffer, size_t buffer_length,
                                     uint32_t *found)
{
    return dz_block_star(DZ_READ(sheet), id, buffer, buffer_length, found);
}

/* The Euler number, to *value. Asks 1. */
static inline uint32_t dz_sheet_euler(const dz_sheet *sheet, int32_t *value)
{
    return dz_block_euler(DZ_READ(sheet), value);
}

/* The soundness test, question 1, as a call of its own: it takes the cells as they stand and ends at the first fault. 1 or 0
   goes to *sound, the count of cells visited to *visited: all of them at 1; at 0, which is no refusal here, none where the
   next id or the count of cells is out of bounds, else those up to and with the first cell at which a rule about it, or a
   ceiling on the totals so far, fails. An id that does not rise is the later cell's fault, a named id means the first cell
   that has it, and cells looked up for another's sake are not counted. The rules about a cell are those of document 01 and
   of the block: a kind from 0 to 3, 0 where its kind says so, counts that keep within the arrays. Nothing but the two
   numbers is written. */
static inline void dz_sheet_check(const dz_sheet *sheet, uint32_t *sound, uint32_t *visited)
{
    dz_block_check(DZ_READ(sheet), sound, visited);
}

/* The number of pieces that the drawing falls into, to *pieces: two cells are linked if one is in the other's boundary, and so
   on through chains; 0 for the empty drawing. Asks 1. */
static inline uint32_t dz_sheet_pieces(const dz_sheet *sheet, uint32_t *pieces)
{
    return dz_block_pieces(DZ_READ(sheet), pieces);
}

/* The drawing's file: a drawing has one. It goes to the first places of the buffer, its length to *bytes, also at 9. Asks
   1, 9. */
static inline uint32_t dz_sheet_write(const dz_sheet *sheet, uint8_t *buffer, size_t buffer_length, uint32_t *bytes)
{
    return dz_block_write(DZ_READ(sheet), buffer, buffer_length, bytes);
}

#undef DZ_EDITED
#undef DZ_READ

/* ---- A drawing as its file. */

/* Question 10 of a file: 0, or 10. */
uint32_t dz_open(const uint8_t *file, size_t file_length);

/* The star of a cell: the ids, rising, of the cells whose boundary holds it. They go to the first places of the buffer,
   their count to *count, also at 9. Asks 10, 4, 9. */
uint32_t dz_star(const uint8_t *file, size_t file_length, uint32_t id, uint32_t *buffer, size_t buffer_length, uint32_t *count);

/* The Euler number, to *value. Asks 10. */
uint32_t dz_euler(const uint8_t *file, size_t file_length, int32_t *value);

/* The soundness test of cells in the form of a file, which need not be a sound drawing's: *sound and *visited as
   dz_sheet_check gives them. Returns 0 with either verdict. 10, with 0 and 0, means that the bytes are not, all of them, a
   next id and cells in the form of a file, at most 256 cells, 512 cycles, 2,048 steps and 2,048 bends in all. */
uint32_t dz_check(const uint8_t *file, size_t file_length, uint32_t *sound, uint32_t *visited);

/* The number of pieces that the drawing falls into, to *count, as dz_sheet_pieces gives it. Asks 10. */
uint32_t dz_pieces(const uint8_t *file, size_t file_length, uint32_t *count);

/* Reads the file and writes the drawing again, which gives the very same bytes: a drawing has one file. They go to the
   first places of the buffer, their count to *count, also at 9. Asks 10, 9. */
uint32_t dz_write(const uint8_t *file, size_t file_length, uint8_t *buffer, size_t buffer_length, uint32_t *count);

/* Reads the file and runs the script's commands as dz_sheet_run does; the lines and *commands are as there.
   The file of the drawing at the end goes to the first places of out, its length to *bytes.
   Asks 10, then 9: the lines must have DZ_LINE_WIDTH places for each byte of the script, out must have DZ_FILE_MOST
   places, and the script at most 4,294,967,295 bytes. The returned number is the call's: 0 does not mean that every
   command was done. */
uint32_t dz_run(const uint8_t *file, size_t file_length, const uint8_t *script, size_t script_length,
                uint32_t *lines, size_t lines_length, uint8_t *out, size_t out_length,
                uint32_t *commands, uint32_t *bytes);

#ifdef __cplusplus
}
#endif

#endif
