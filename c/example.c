/* From a list to its matches, in C: builds four codes and phrases, searches a job sheet in the three ways, two records at a time, and shows a refusal.
 * cc -std=c11 c/example.c crates/exports/out/libexports.a -o example */
#include <inttypes.h>
#include <stdio.h>
#include <string.h>

#include "rotspangle.h"

/* Room for small lists: 64 states, 8 patterns, 512 cells. */
enum { STATES = 64, OUTPUTS = 8, CELLS = 512, SLOTS = 2 };

static uint32_t trie[STATES][5], notes[STATES][6], owns[OUTPUTS][2], spots[CELLS][2];
static uint32_t base[CELLS], link_[CELLS], output[CELLS], outs[OUTPUTS][3];
static uint8_t check[CELLS], depth[CELLS];

static const char *const codes[] = { "T10", "T100", "LIVE", "LIVE NEUTRAL" };
static const char job[] = "T100 to pole 7, LIVE NEUTRAL";

/* The codes in a row, and where each ends. Returns the bytes. */
static size_t join(uint8_t *bytes, uint32_t *ends)
{
    size_t end = 0;
    for (size_t i = 0; i < 4; i++) {
        memcpy(bytes + end, codes[i], strlen(codes[i]));
        end += strlen(codes[i]);
        ends[i] = (uint32_t)end;
    }
    return end;
}

static uint32_t make(uint32_t kind, rotspangle_tables *tables)
{
    uint8_t bytes[64];
    uint32_t ends[4], values[4] = { 10, 100, 900, 901 };
    size_t length = join(bytes, ends);
    rotspangle_work work = { trie, notes, owns, spots, STATES, OUTPUTS, CELLS };
    return rotspangle_make(kind, bytes, length, ends, values, 4, &work, tables);
}

/* Every match of a search, a sheet after the other. Returns how it stopped: 0, or a refusal. */
static uint32_t print_matches(const char *name, rotspangle_searching *search, const rotspangle_tables *tables)
{
    rotspangle_value value = { 0 };
    rotspangle_match sheet[SLOTS];
    uint32_t stop;
    printf("%s\n", name);
    do {
        size_t written;
        stop = rotspangle_fill(search, tables, (const uint8_t *)job, sizeof job - 1, &value, sheet, SLOTS, &written);
        for (size_t i = 0; i < written; i++) {
            printf("%zu %zu %zu\n", sheet[i].start, sheet[i].end, sheet[i].value);
        }
    } while (stop == ROTSPANGLE_FULL);
    if (stop == ROTSPANGLE_ENDED) {
        printf("moves %" PRIu64 "\n", value.moves);
    } else {
        printf("refusal %" PRIu32 ": %s\n", stop, rotspangle_meaning(stop));
    }
    return stop;
}

int main(void)
{
    rotspangle_tables tables = { base, link_, output, check, depth, outs, OUTPUTS, CELLS, { 0 } };
    uint32_t refusal = make(ROTSPANGLE_STANDARD, &tables);
    if (refusal != 0) {
        fprintf(stderr, "refusal %" PRIu32 ": %s\n", refusal, rotspangle_meaning(refusal));
        return 1;
    }
    print_matches("overlapping", rotspangle_overlapping, &tables);
    print_matches("plain", rotspangle_plain, &tables);
    print_matches("leftmost search on tables of kind 0", rotspangle_leftmost, &tables);
    refusal = make(ROTSPANGLE_LEFTMOST_LONGEST, &tables);
    if (refusal != 0) {
        fprintf(stderr, "refusal %" PRIu32 ": %s\n", refusal, rotspangle_meaning(refusal));
        return 1;
    }
    print_matches("leftmost, longest", rotspangle_leftmost, &tables);
    refusal = make(7, &tables);
    printf("kind 7\nrefusal %" PRIu32 ": %s\n", refusal, rotspangle_meaning(refusal));
    return 0;
}
