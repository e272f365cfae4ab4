/* Damages sound blocks at random and hands them to every function, on a thread with a stack of DZ_STACK bytes. Block and
   buffers stand between pages that may not be touched, first at their very end, then at their very beginning. Whether a
   block is sound is judged here a second time, by the rules of document 01.

   A damaged block must get 1 from every function that asks it, and stay byte for byte, the buffers too; the soundness test
   must say no, and at which cell. One that is still sound must be sound after every call and stay byte for byte with a no;
   its pieces are counted here a second time; what is written of it must open, and be written again as the same bytes.

   DAMAGE_ROUNDS  how many blocks (1,000,000)
   DAMAGE_SEED    where the random numbers start (1) */
#define _GNU_SOURCE
#include <math.h>
#include <pthread.h>
#include <signal.h>
#include <stdio.h>
#include <stdlib.h>
#include <string.h>
#include <sys/mman.h>
#include <unistd.h>

#include "dazolbei.h"

enum { POOL = 48, SCRIPT_MOST = 1024, LINES_MOST = DZ_LINE_WIDTH * SCRIPT_MOST, PAGE = 4096, HELD = 0xA7, SHOWN = 10 };

/* ---- Random numbers. */

static uint64_t state;

static uint64_t bits(void)
{
    state ^= state >> 12;
    state ^= state << 25;
    state ^= state >> 27;
    return state * 0x2545F4914F6CDD1Du;
}

/* A number below the end; 0 if that is 0. */
static uint32_t below(uint32_t end)
{
    return end == 0 ? 0 : (uint32_t)(bits() >> 32) % end;
}

/* ---- Memory between two pages that may not be touched. */

typedef struct {
    uint8_t *first;
    size_t size;
} guarded;

static guarded guarded_memory(size_t least)
{
    size_t size = (least + PAGE - 1) / PAGE * PAGE;
    uint8_t *all = mmap(NULL, size + 2 * PAGE, PROT_NONE, MAP_PRIVATE | MAP_ANONYMOUS, -1, 0);
    if (all == MAP_FAILED || mprotect(all + PAGE, size, PROT_READ | PROT_WRITE) != 0) {
        perror("mmap");
        exit(2);
    }
    guarded memory = {all + PAGE, size};
    return memory;
}

/* So many bytes at the very end or at the very beginning. */
static void *placed(guarded memory, size_t length, int at_end)
{
    return at_end ? memory.first + memory.size - length : memory.first;
}

/* ---- Question 1, by the rules of document 01 and those of the block. */

static int in_bounds(double x)
{
    return -1048576.0 <= x && x <= 1048576.0;
}

/* The row of a live cell, or the count. */
static size_t row_of(const dz_sheet *s, uint32_t id)
{
    size_t row = 0;
    while (row < s->count && s->ids[row] != id) row++;
    return row;
}

static int is_kind(const dz_sheet *s, uint32_t id, uint32_t kind)
{
    size_t row = row_of(s, id);
    return row < s->count && s->kinds[row] == kind;
}

/* Whether so many steps make a cycle: one closed edge in one direction, or open edges that join, last to first. */
static int joins(const dz_sheet *s, const uint32_t *steps, size_t length)
{
    uint32_t home = 0, at = 0;
    if (is_kind(s, steps[0] / 2, 2)) {
        for (size_t i = 1; i < length; i++)
            if (steps[i] != steps[0]) return 0;
        return 1;
    }
    for (size_t i = 0; i < length; i++) {
        size_t row = row_of(s, steps[i] / 2);
        if (row == s->count || s->kinds[row] != 1) return 0;
        uint32_t tail = steps[i] % 2 ? s->ends[row] : s->starts[row];
        if (i == 0) home = tail;
        if (i > 0 && tail != at) return 0;
        at = steps[i] % 2 ? s->starts[row] : s->ends[row];
    }
    return at == home;
}

/* The places in use before a row. */
typedef struct {
    uint64_t cycles, steps, bends;
} places;

static int sound_bends(const dz_sheet *s, uint32_t count, places *p)
{
    if (count > 2048 || p->bends + count > 2048) return 0;
    for (uint32_t i = 0; i < count; i++, p->bends++)
        if (!in_bounds(s->bx[p->bends]) || !in_bounds(s->by[p->bends])) return 0;
    return 1;
}

static int sound_cycles(const dz_sheet *s, uint32_t count, places *p)
{
    if (count > 512 || p->cycles + count > 512) return 0;
    for (uint32_t i = 0; i < count; i++) {
        uint32_t length = s->cycles[p->cycles++];
        uint64_t taken = length == 0 ? 1 : length;
        if (p->steps + taken > 2048) return 0;
        const uint32_t *steps = s->steps + p->steps;
        if (length == 0 ? !is_kind(s, steps[0], 0) : !joins(s, steps, length)) return 0;
        p->steps += taken;
    }
    return 1;
}

static int sound_row(const dz_sheet *s, size_t i, places *p)
{
    int ends_at_none = s->starts[i] == 0 && s->ends[i] == 0;
    switch (s->kinds[i]) {
    case 0:
        return ends_at_none && s->bends[i] == 0 && s->counts[i] == 0 && in_bounds(s->px[i]) && in_bounds(s->py[i]);
    case 1:
        return s->counts[i] == 0 && is_kind(s, s->starts[i], 0) && is_kind(s, s->ends[i], 0) &&
               sound_bends(s, s->bends[i], p);
    case 2:
        return ends_at_none && s->counts[i] == 0 && s->bends[i] > 0 && sound_bends(s, s->bends[i], p);
    case 3:
        return ends_at_none && s->bends[i] == 0 && sound_cycles(s, s->counts[i], p);
    default:
        return 0;
    }
}

static int sound_id(const dz_sheet *s, size_t i)
{
    return s->ids[i] > (i == 0 ? 0 : s->ids[i - 1]) && s->ids[i] < s->next;
}

/* Whether the block is sound, and how many cells there are up to and with the first at fault. */
static int judged(const dz_sheet *s, size_t *visited)
{
    places p = {0, 0, 0};
    *visited = 0;
    if (s->next < 1 || s->next > 65536 || s->count > 256) return 0;
    while (*visited < s->count) {
        size_t i = (*visited)++;
        if (!sound_id(s, i) || !sound_row(s, i, &p)) return 0;
    }
    return 1;
}

static int sound(const dz_sheet *s)
{
    size_t visited;
    return judged(s, &visited);
}

/* ---- The pieces of a sound block. */

/* Gives all rows of one piece the number of the other. */
static void link_rows(const dz_sheet *s, size_t *piece, size_t a, size_t b)
{
    size_t from = piece[a], to = piece[b];
    for (size_t i = 0; from != to && i < s->count; i++)
        if (piece[i] == from) piece[i] = to;
}

/* Links a row with an edge and its ends: what a step brings into a face's boundary. */
static void link_step(const dz_sheet *s, size_t *piece, size_t row, uint32_t edge)
{
    size_t at = row_of(s, edge);
    link_rows(s, piece, row, at);
    if (s->kinds[at] != 1) return;
    link_rows(s, piece, row, row_of(s, s->starts[at]));
    link_rows(s, piece, row, row_of(s, s->ends[at]));
}

static uint32_t pieces_of(const dz_sheet *s)
{
    size_t piece[256], cycle = 0, step = 0;
    uint32_t count = 0;
    for (size_t i = 0; i < s->count; i++) piece[i] = i;
    for (size_t i = 0; i < s->count; i++) {
        if (s->kinds[i] == 1) link_step(s, piece, i, s->ids[i]);
        for (uint32_t k = 0; k < s->counts[i]; k++, cycle++) {
            if (s->cycles[cycle] == 0) link_rows(s, piece, i, row_of(s, s->steps[step++]));
            for (uint32_t j = 0; j < s->cycles[cycle]; j++) link_step(s, piece, i, s->steps[step++] / 2);
        }
    }
    for (size_t number = 0; number < s->count; number++) {
        size_t i = 0;
        while (i < s->count && piece[i] != number) i++;
        if (i < s->count) count++;
    }
    return count;
}

/* ---- Commands, most of them good. */

typedef struct {
    uint8_t bytes[SCRIPT_MOST];
    size_t length;
} script;

static void put_byte(script *c, uint32_t byte)
{
    if (c->length < SCRIPT_MOST) c->bytes[c->length++] = (uint8_t)byte;
}

static void put_number(script *c, uint32_t value)
{
    for (; value >= 0x80; value >>= 7) put_byte(c, value | 0x80);
    put_byte(c, value);
}

static void put_position(script *c)
{
    for (int i = 0; i < 2; i++) {
        double x = below(200) == 0 ? 2e6 : (double)below(2000) - 1000.0;
        uint8_t bytes[8];
        memcpy(bytes, &x, 8);
        for (int j = 0; j < 8; j++) put_byte(c, bytes[j]);
    }
}

static void put_bends(script *c)
{
    uint32_t count = below(4);
    put_number(c, count);
    while (count-- > 0) put_position(c);
}

/* A live cell of a kind if there is one near a random place. */
static uint32_t some(const dz_sheet *s, uint32_t kind)
{
    uint32_t count = s->count > 256 ? 256 : (uint32_t)s->count, from = below(count);
    for (uint32_t i = 0; i < count; i++)
        if (s->kinds[(from + i) % count] == kind) return s->ids[(from + i) % count] & 0xFFFFF;
    return below(70000);
}

/* Lone vertices, closed edges, and open edges forth and back. */
static void put_cycles(script *c, const dz_sheet *s)
{
    uint32_t count = 1 + below(3);
    put_number(c, count);
    while (count-- > 0) {
        uint32_t what = below(3), edge = some(s, what == 1 ? 2 : 1), twice = 1 + below(4);
        put_number(c, what == 0 ? 0 : what == 1 ? twice : 2 * twice);
        if (what == 0) put_number(c, some(s, 0));
        for (uint32_t i = 0; what != 0 && i < twice; i++) {
            put_number(c, 2 * edge);
            if (what == 2) put_number(c, 2 * edge + 1);
        }
    }
}

static void put_command(script *c, const dz_sheet *s)
{
    uint32_t kind = s->count > 220 && below(3) == 0 ? 6 : 1 + below(14);
    if (kind == 6 && s->count < 100 && below(4) != 0) kind = 1;
    if (below(40) == 0) kind = 15;
    put_byte(c, below(100) == 0 ? below(256) : kind);
    switch (kind) {
    case 1: put_position(c); break;
    case 2: put_number(c, some(s, 0)); put_number(c, some(s, 0)); put_bends(c); break;
    case 3: put_bends(c); break;
    case 4: put_cycles(c, s); break;
    case 5: put_number(c, some(s, 0)); put_position(c); break;
    case 6: put_number(c, some(s, below(4))); break;
    case 7: put_number(c, some(s, 0)); put_number(c, some(s, 0)); break;
    case 8: put_number(c, some(s, 1 + below(2))); put_number(c, some(s, 1 + below(2))); put_number(c, below(2)); break;
    case 9: put_number(c, some(s, below(3))); break;
    case 10: put_number(c, some(s, 1 + below(2))); put_number(c, below(4)); break;
    case 11: put_number(c, some(s, 3)); put_position(c); break;
    case 12:
        put_number(c, some(s, 3));
        for (int i = 0; i < 4; i++) put_number(c, below(2 + i % 2 * 2));
        put_bends(c);
        put_number(c, 0);
        break;
    case 13: put_number(c, some(s, 3)); put_bends(c); put_number(c, 0); break;
    case 14: put_number(c, some(s, below(3))); break;
    default: break;
    }
}

static void write_script(script *c, const dz_sheet *s)
{
    c->length = 0;
    for (uint32_t i = 1 + below(3); i > 0; i--) put_command(c, s);
    if (below(20) == 0) c->length = below((uint32_t)c->length);
}

/* ---- Damage. */

static uint32_t odd_number(const dz_sheet *s, uint32_t was)
{
    static const uint32_t odd[] = {0, 1, 2, 3, 4, 255, 256, 257, 511, 512, 513, 2047, 2048, 2049, 65535, 65536, 65537,
                                   131071, 131072, 0x7FFFFFFF, 0x80000000, 0xFFFFFFFE, 0xFFFFFFFF};
    switch (below(6)) {
    case 0: return was + 1;
    case 1: return was - 1;
    case 2: return s->ids[below(256)];
    case 3: return 2 * s->ids[below(256)] + below(2);
    case 4: return (uint32_t)bits();
    default: return odd[below(sizeof odd / sizeof *odd)];
    }
}

static double odd_coordinate(void)
{
    double any;
    uint64_t all = bits();
    memcpy(&any, &all, 8);
    double odd[] = {NAN, INFINITY, -INFINITY, 1048576.0, -1048576.0, 1048576.0000000002, -1048577.0, 1e300, -0.0, 5e-324};
    uint32_t i = below(11);
    return i == 10 ? any : odd[i];
}

/* A place of an array, in one of two cases among those in use. */
static uint32_t some_place(const dz_sheet *s, uint32_t size)
{
    return below(2) == 0 ? below(size) : below(s->count < size ? (uint32_t)s->count : size);
}

static uint32_t *some_numbers(dz_sheet *s, uint32_t *size)
{
    uint32_t *all[] = {s->ids, s->kinds, s->starts, s->ends, s->bends, s->counts, s->cycles, s->steps};
    uint32_t i = below(8);
    *size = i < 6 ? 256 : i == 6 ? 512 : 2048;
    return all[i];
}

static double *some_coordinates(dz_sheet *s, uint32_t *size)
{
    double *all[] = {s->px, s->py, s->bx, s->by};
    uint32_t i = below(4);
    *size = i < 2 ? 256 : 2048;
    return all[i];
}

static void damage_number(dz_sheet *s)
{
    uint32_t size, *numbers = some_numbers(s, &size), place = some_place(s, size);
    numbers[place] = odd_number(s, numbers[place]);
}

static void damage_coordinate(dz_sheet *s)
{
    uint32_t size;
    double *coordinates = some_coordinates(s, &size);
    coordinates[some_place(s, size)] = odd_coordinate();
}

static void damage_count(dz_sheet *s)
{
    size_t odd[] = {s->count + 1, s->count - 1, 0, 255, 256, 257, 300, 65536, SIZE_MAX, SIZE_MAX / 2 + 1, (size_t)bits(),
                    below(256)};
    s->count = odd[below(sizeof odd / sizeof *odd)];
}

/* A range of an array, or all of it: 0, one odd number, or numbers at random. */
static void damage_range(dz_sheet *s)
{
    uint32_t size, *numbers = some_numbers(s, &size), from = some_place(s, size), how = below(3);
    uint32_t to = below(4) == 0 ? size : from + below(size - from) + 1, one = odd_number(s, numbers[from]);
    if (below(4) == 0) from = 0;
    for (uint32_t i = from; i < to; i++) numbers[i] = how == 0 ? 0 : how == 1 ? one : (uint32_t)bits();
}

static void damage_coordinates(dz_sheet *s)
{
    uint32_t size;
    double *coordinates = some_coordinates(s, &size);
    uint32_t from = some_place(s, size), to = below(4) == 0 ? size : from + below(size - from) + 1;
    for (uint32_t i = from; i < to; i++) coordinates[i] = odd_coordinate();
}

/* Two ids change places, or one is there twice. */
static void damage_order(dz_sheet *s)
{
    uint32_t a = some_place(s, 256), b = some_place(s, 256), was = s->ids[a];
    s->ids[a] = s->ids[b];
    if (below(2) == 0) s->ids[b] = was;
}

/* Bytes anywhere: one, a few, or the whole block. */
static void damage_bytes(dz_sheet *s)
{
    uint8_t *bytes = (uint8_t *)s;
    if (below(16) == 0)
        for (size_t i = 0; i < sizeof *s; i += 8) {
            uint64_t word = bits();
            memcpy(bytes + i, &word, 8);
        }
    else
        for (uint32_t i = 1 + below(3); i > 0; i--) bytes[below(sizeof *s)] ^= (uint8_t)(1u << below(8));
}

static void damage(dz_sheet *s)
{
    uint32_t next[] = {0, 1, s->next - 1, 65535, 65536, 65537, 0xFFFFFFFF, below(65536)};
    switch (below(16)) {
    case 0: s->next = next[below(8)]; break;
    case 1: damage_count(s); break;
    case 2: damage_order(s); break;
    case 3: damage_range(s); break;
    case 4: damage_coordinates(s); break;
    case 5: damage_bytes(s); break;
    case 6: s->kinds[some_place(s, 256)] = below(2) == 0 ? below(4) : 4 + below(5); break;
    case 7: case 8: case 9: damage_coordinate(s); break;
    default: damage_number(s);
    }
}

/* ---- A round. */

static dz_sheet pool[POOL], before;
static guarded for_block, for_other, for_script, for_lines, for_ids, for_file, for_again;
static dz_sheet *block, *other;
static int at_end;
static unsigned long got_one, got_none, passed, failed;
static const char *wrong;
static script next_script;

static void must(int holds, const char *what)
{
    if (!holds && wrong == NULL) wrong = what;
}

static int all_held(const void *memory, size_t length)
{
    const uint8_t *bytes = memory;
    for (size_t i = 0; i < length; i++)
        if (bytes[i] != HELD) return 0;
    return 1;
}

static int unchanged(void)
{
    return memcmp(block, &before, sizeof before) == 0;
}

static void *held(guarded memory, size_t length)
{
    return memset(placed(memory, length, at_end), HELD, length);
}

static void ask_euler(int is_sound)
{
    int32_t value = 77;
    uint32_t number = dz_sheet_euler(block, &value);
    must(number == (is_sound ? 0 : 1), "Euler's number");
    must(is_sound || value == 0, "Euler's value at 1");
}

static void ask_pieces(int is_sound)
{
    uint32_t pieces = 77, number = dz_sheet_pieces(block, &pieces);
    must(number == (is_sound ? 0 : 1), "the number beside the pieces");
    must(pieces == (is_sound ? pieces_of(block) : 0), "the count of pieces");
}

static void ask_check(void)
{
    uint32_t is_sound = 77, cells = 77;
    size_t visited;
    dz_sheet_check(block, &is_sound, &cells);
    must(is_sound == (uint32_t)judged(block, &visited), "the verdict");
    must(cells == visited, "the count of cells visited");
}

static void ask_star(int is_sound)
{
    uint32_t places[] = {0, 1, 3, 256}, length = places[below(4)], found = 77;
    uint32_t *ids = held(for_ids, 4 * length);
    uint32_t number = dz_sheet_star(block, below(8) == 0 ? (uint32_t)bits() : block->ids[some_place(block, 256)], ids, length, &found);
    must(is_sound ? number == 0 || number == 4 || number == 9 : number == 1, "the star's number");
    must(number == 0 || number == 9 || found == 0, "the star's count at a no");
    must(number != 0 || found <= length, "the star's count");
    must(number != 9 || found > length, "the star's count at 9");
    size_t kept = number == 0 ? found : 0;
    must(all_held(ids + kept, 4 * (length - kept)), "the star's buffer");
}

/* What is written opens, and is written again as the same bytes. */
static void write_again(const uint8_t *file, uint32_t bytes)
{
    uint32_t again = 77;
    must(dz_sheet_open(other, file, bytes) == 0, "what was written opens");
    must(sound(other), "what was opened is sound");
    uint8_t *second = held(for_again, bytes);
    must(dz_sheet_write(other, second, bytes, &again) == 0 && again == bytes, "the second write");
    must(memcmp(file, second, bytes) == 0, "the same bytes");
}

static void ask_write(int is_sound)
{
    uint32_t bytes = 77;
    size_t length = is_sound || below(64) == 0 ? DZ_FILE_MOST : below(100);
    uint8_t *file = held(for_file, length);
    uint32_t number = dz_sheet_write(block, file, length, &bytes);
    must(number == (is_sound ? 0 : 1), "the write's number");
    must(number == 0 || bytes == 0, "the write's count at 1");
    must(number != 0 || bytes <= length, "the write's count");
    size_t kept = number == 0 && bytes <= length ? bytes : 0;
    must(all_held(file + kept, length - kept), "the write's buffer");
    if (number != 0 || !is_sound) return;
    write_again(file, bytes);
    /* A buffer that is one too short. */
    uint8_t *tight = held(for_again, bytes - 1);
    uint32_t wanted = 77;
    must(dz_sheet_write(block, tight, bytes - 1, &wanted) == 9 && wanted == bytes, "the write at 9");
    must(all_held(tight, bytes - 1), "the write's buffer at 9");
}

static const uint8_t *lent_script(void)
{
    return memcpy(placed(for_script, next_script.length, at_end), next_script.bytes, next_script.length);
}

static void ask_rest(int is_sound)
{
    size_t rest = dz_sheet_rest(block, lent_script(), next_script.length);
    must(is_sound ? rest <= next_script.length : rest == next_script.length, "the rest");
}

static uint32_t ask_command(int is_sound)
{
    uint32_t first = 77, fresh = 77, removed = 77;
    uint32_t number = dz_sheet_command(block, lent_script(), next_script.length, &first, &fresh, &removed);
    must(is_sound ? number == 0 || (2 <= number && number <= 8) : number == 1, "the command's number");
    must(number == 0 || (first == 0 && fresh == 0 && removed == 0), "the command's counts at a no");
    return number;
}

static uint32_t ask_run(int is_sound)
{
    uint32_t commands = 77;
    size_t length = DZ_LINE_WIDTH * next_script.length, lent = length > 0 && below(8) == 0 ? length - 1 : length;
    uint32_t *lines = held(for_lines, 4 * lent);
    uint32_t number = dz_sheet_run(block, lent_script(), next_script.length, lines, lent, &commands);
    must(number == (!is_sound ? 1 : lent < length ? 9 : 0), "the run's number");
    must(number == 0 || commands == 0, "the run's count at a no");
    must(commands <= next_script.length, "the run's count");
    size_t kept = number == 0 && commands <= next_script.length ? DZ_LINE_WIDTH * (size_t)commands : 0;
    must(all_held(lines + kept, 4 * (lent - kept)), "the run's lines");
    return number;
}

/* The soundness test of bytes says yes if they open, and only then; so do they have pieces. */
static void check_file(const uint8_t *file, uint32_t bytes, uint32_t opened)
{
    uint32_t is_sound = 77, cells = 77, number = dz_check(file, bytes, &is_sound, &cells);
    must(number == 0 || (number == 10 && is_sound == 0 && cells == 0), "the number of check");
    must(is_sound == (opened == 0), "the verdict on bytes");
    must(cells <= 256 && (opened != 0 || cells == block->count), "the count of cells visited in bytes");
    uint32_t pieces = 77, refused = dz_pieces(file, bytes, &pieces);
    must(refused == opened && pieces == (opened == 0 ? pieces_of(block) : 0), "the pieces of bytes");
}

/* The file of a sound block, most often with a byte changed, into the block as it is. */
static uint32_t ask_open(void)
{
    uint32_t bytes = 0;
    uint8_t *out = placed(for_again, DZ_FILE_MOST, at_end);
    must(dz_sheet_write(&pool[below(POOL)], out, DZ_FILE_MOST, &bytes) == 0, "the write of a sound block");
    if (bytes == 0) return 0;
    uint8_t *file = memmove(placed(for_again, bytes, at_end), out, bytes);
    if (below(4) != 0) file[below(bytes)] ^= (uint8_t)(1u << below(8));
    uint32_t number = dz_sheet_open(block, file, bytes);
    must(number == 0 || number == 10, "the number of open");
    check_file(file, bytes, number);
    if (number != 0) return number;
    must(sound(block), "the opened block is sound");
    uint8_t *again = held(for_file, bytes);
    uint32_t count = 77;
    must(dz_sheet_write(block, again, bytes, &count) == 0 && count == bytes && memcmp(file, again, bytes) == 0,
         "the opened file again");
    return number;
}

static void round_on(uint32_t place)
{
    memcpy(block, &pool[place], sizeof *block);
    for (uint32_t i = below(8) == 0 ? 0 : 1 + below(2); i > 0; i--) damage(block);
    memcpy(&before, block, sizeof before);
    write_script(&next_script, block);
    int is_sound = sound(block);
    (*(is_sound ? &got_none : &got_one))++;
    ask_euler(is_sound);
    ask_pieces(is_sound);
    ask_check();
    ask_star(is_sound);
    ask_write(is_sound);
    ask_rest(is_sound);
    must(unchanged(), "a call that reads leaves the block as it was");
    uint32_t which = below(8);
    uint32_t number = which == 0 ? ask_open() : which < 4 ? ask_run(is_sound) : ask_command(is_sound);
    must(number == 0 || unchanged(), "a no leaves the block as it was");
    must(number != 0 || sound(block), "the block is sound after a call that is done");
    if (wrong == NULL && sound(block) && below(4) == 0) memcpy(&pool[place], block, sizeof *block);
}

static void count_round(unsigned long round)
{
    if (wrong == NULL) {
        passed++;
        return;
    }
    if (failed++ < SHOWN) printf("round %lu, the block at its %s: %s\n", round, at_end ? "end" : "beginning", wrong);
    wrong = NULL;
}

/* Blocks that many commands were run on. */
static void fill_pool(void)
{
    for (int i = 0; i < POOL; i++) {
        dz_sheet_new(&pool[i]);
        for (int c = 0; c < 12 * i; c++) {
            uint32_t first, fresh, removed;
            next_script.length = 0;
            put_command(&next_script, &pool[i]);
            dz_sheet_command(&pool[i], next_script.bytes, next_script.length, &first, &fresh, &removed);
        }
        must(sound(&pool[i]), "the first blocks are sound");
    }
}

/* A page that may not be touched was. */
static void touched(int signal)
{
    static const char said[] = "memory that is not lent was touched, or more stack than DZ_STACK\n0 passed, 1 failed\n";
    (void)signal;
    if (write(1, said, sizeof said - 1) < 0) _exit(2);
    _exit(1);
}

/* Says so on a stack of its own. */
static void watch(void)
{
    static uint8_t own[65536];
    stack_t apart;
    struct sigaction action;
    memset(&apart, 0, sizeof apart);
    apart.ss_sp = own;
    apart.ss_size = sizeof own;
    memset(&action, 0, sizeof action);
    action.sa_handler = touched;
    action.sa_flags = SA_ONSTACK;
    if (sigaltstack(&apart, NULL) || sigaction(SIGSEGV, &action, NULL) || sigaction(SIGBUS, &action, NULL)) exit(2);
}

static void *all_rounds(void *rounds)
{
    watch();
    fill_pool();
    for (unsigned long i = 0; i < *(unsigned long *)rounds; i++) {
        at_end = i < *(unsigned long *)rounds / 2;
        block = placed(for_block, sizeof *block, at_end);
        other = placed(for_other, sizeof *other, at_end);
        round_on(below(POOL));
        count_round(i);
    }
    return NULL;
}

static unsigned long setting(const char *name, unsigned long otherwise)
{
    const char *text = getenv(name);
    return text == NULL ? otherwise : strtoul(text, NULL, 10);
}

int main(void)
{
    unsigned long rounds = setting("DAMAGE_ROUNDS", 1000000);
    state = (setting("DAMAGE_SEED", 1) + 1) * 0x9E3779B97F4A7C15u | 1;
    for_block = guarded_memory(sizeof(dz_sheet));
    for_other = guarded_memory(sizeof(dz_sheet));
    for_script = guarded_memory(SCRIPT_MOST);
    for_lines = guarded_memory(4 * LINES_MOST);
    for_ids = guarded_memory(4 * DZ_STAR_MOST);
    for_file = guarded_memory(DZ_FILE_MOST);
    for_again = guarded_memory(DZ_FILE_MOST);
    guarded stack = guarded_memory(DZ_STACK);
    pthread_attr_t attributes;
    pthread_t thread;
    if (pthread_attr_init(&attributes) || pthread_attr_setstack(&attributes, stack.first, stack.size) ||
        pthread_create(&thread, &attributes, all_rounds, &rounds) || pthread_join(thread, NULL)) {
        fprintf(stderr, "no thread with a stack of %d bytes\n", DZ_STACK);
        return 2;
    }
    printf("%lu damaged blocks got 1, %lu were still sound\n", got_one, got_none);
    if (got_one == 0 || got_none == 0) failed++;
    printf("%lu passed, %lu failed\n", passed, failed);
    return failed != 0;
}
