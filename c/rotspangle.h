/* Rotspangle for C: a multi-pattern matcher whose code is proved. Link `libexports.a` (`rt lib` in crates/exports writes it to crates/exports/out/; x86-64).
 *
 * Every table, text and sheet is lent by the caller; nothing is allocated, nothing is kept between calls, and no call writes anything but what is
 * named here as written. The functions ask for no particular contents: on any list, tables, search value and text they answer and end, with a refusal
 * where they can't do better.
 *
 * What no proof covers is the call itself. A pointer must lead to as many elements as its length says, and may not be NULL even for a length of 0;
 * what is written may overlap nothing else that is lent.
 *
 * A first use takes the structs and the inline functions at the end: rotspangle_make and rotspangle_fill. The four functions of the library stand
 * before them, with each slice as a pointer and a length.
 */
#ifndef ROTSPANGLE_H
#define ROTSPANGLE_H

#include <stddef.h>
#include <stdint.h>

#ifdef __cplusplus
extern "C" {
#endif

/* Kinds: what a list is built for. */
enum {
    ROTSPANGLE_STANDARD = 0,         /* for overlapping and plain search */
    ROTSPANGLE_LEFTMOST_LONGEST = 1, /* for leftmost search: of the matches that start first, the longest */
    ROTSPANGLE_LEFTMOST_FIRST = 2    /* for leftmost search: of those, the one listed first */
};

/* Refusals: the numbers that a call answers when it can't serve. */
enum {
    ROTSPANGLE_BAD_KIND = 1,    /* the kind is above 2 */
    ROTSPANGLE_BAD_ENDS = 2,    /* the ends don't cut the bytes, or ends and values differ in number */
    ROTSPANGLE_TOO_MANY = 3,    /* more than 1,024 patterns */
    ROTSPANGLE_EMPTY = 4,       /* a pattern is empty */
    ROTSPANGLE_TOO_LONG = 5,    /* a pattern has more than 64 bytes */
    ROTSPANGLE_FEW_STATES = 6,  /* the states, root and dead counted, exceed the state slots */
    ROTSPANGLE_FEW_CELLS = 7,   /* the cells exceed the cell slots, or 65,536 */
    ROTSPANGLE_FEW_OUTPUTS = 8, /* the accepted patterns exceed the output slots */
    ROTSPANGLE_WRONG_KIND = 9,  /* the tables are of a kind that another search is for */
    ROTSPANGLE_LONG_TEXT = 10,  /* the text has more than 65,536 bytes */
    ROTSPANGLE_DAMAGE = 11      /* tables, counts or the search value can't be right */
};

/* How a search stops, where it is not refused. */
enum {
    ROTSPANGLE_ENDED = 0, /* the text has no further match */
    ROTSPANGLE_FULL = 1   /* every slot of the sheet is written; go on with the value */
};

/* Slots that suffice for every list within the limits; for the bytes b of all patterns together b + 2 states suffice, for n patterns n outputs. */
#define ROTSPANGLE_MOST_STATES 65538
#define ROTSPANGLE_MOST_CELLS 65536
#define ROTSPANGLE_MOST_OUTPUTS 1024
#define ROTSPANGLE_MOST_TEXT 65536

/* A match: the bytes start .. end - 1 of the text are a pattern with this value. */
typedef struct {
    size_t start;
    size_t end;
    size_t value;
} rotspangle_match;

/* Builds the tables of a list: the bytes of all patterns in a row, the end of each pattern in them, and a value for each.
 *
 * Returns 0, or the lowest refusal of 1 to 8 that applies.
 * Leaves, after 0: the tables of the list in base, link, output, check, depth and outs, zero in their slots past the used part, zero in the four
 *   working tables (trie, owns, notes, spots), and counts = { kind, accepted, states, cells }.
 * After 1 to 5: every table as it was; counts = { lowest row with an empty or too long pattern for 4 and 5, else 0; 0; 0; 0 }.
 * After 6 to 8: every element of every table zero, and counts zero.
 * State slots are the rows of trie and notes, output slots those of owns and outs, cell slots those of spots and the five columns; where they differ,
 *   the shortest counts. */
uint32_t rotspangle_build(
    uint32_t kind,
    const uint8_t *bytes, size_t bytes_length,
    const uint32_t *ends, size_t ends_length,
    const uint32_t *values, size_t values_length,
    uint32_t (*trie)[5], size_t trie_length,
    uint32_t (*owns)[2], size_t owns_length,
    uint32_t (*notes)[6], size_t notes_length,
    uint32_t (*spots)[2], size_t spots_length,
    uint32_t *base, size_t base_length,
    uint32_t *link, size_t link_length,
    uint32_t *output, size_t output_length,
    uint8_t *check, size_t check_length,
    uint8_t *depth, size_t depth_length,
    uint32_t (*outs)[3], size_t outs_length,
    uint32_t counts[4]);

/* Goes on with a search of the text from the value in *state, *pending, *place and *moves; all four 0 begin one.
 *
 * Takes the tables and the counts kind, accepted and cells of a good build.
 * Returns 0 (the end), 1 (the sheet is full), or a refusal: 9, 10 or 11. 9 and 10 come before an empty sheet is full.
 * Leaves: the matches found, in the search's order, in the sheet from its first slot, their number in *written, and in the four variables the value to
 *   go on with. Slots past the written ones stay as they were. After 9 and 10 nothing is written but *written = 0 and the value as it was; after 11
 *   the records before it stay, and the value is the one after the last of them. After the end the end is given again.
 *   *place: after a full sheet the end of the last match written (as it was if there is no slot), at the end the text's length. *moves: those of the walk over just these bytes, n of
 *   them: at most 2n - 1, none for n = 0; leftmost search reports 0. (From a fresh value, over the tables of a good build.) */
#define ROTSPANGLE_SEARCH(name)                                                                          \
    uint32_t name(                                                                                       \
        const uint32_t *base, size_t base_length, const uint32_t *link, size_t link_length,              \
        const uint32_t *output, size_t output_length, const uint8_t *check, size_t check_length,         \
        const uint8_t *depth, size_t depth_length, const uint32_t (*outs)[3], size_t outs_length,        \
        uint32_t kind, uint32_t accepted, uint32_t cells, const uint8_t *text, size_t text_length,       \
        uint32_t *state, uint32_t *pending, size_t *place, uint64_t *moves,                              \
        rotspangle_match *sheet, size_t sheet_length, size_t *written)

/* Overlapping search, on kind 0: every occurrence, by its end, at one end the longer first, equal ones in list order. */
ROTSPANGLE_SEARCH(rotspangle_overlapping);
/* Plain search, on kind 0: the match that ends first, the longest of those; then the same from its end on. */
ROTSPANGLE_SEARCH(rotspangle_plain);
/* Leftmost search, on kinds 1 and 2: the match that starts first, of those the one that the kind prefers; then the same from its end on. */
ROTSPANGLE_SEARCH(rotspangle_leftmost);

/* ---- The same in fewer words. */

/* Working tables of a build. Zero again after a good one. */
typedef struct {
    uint32_t (*trie)[5]; /* `states` slots */
    uint32_t (*notes)[6];
    uint32_t (*owns)[2];  /* `outputs` slots */
    uint32_t (*spots)[2]; /* `cells` slots */
    size_t states, outputs, cells;
} rotspangle_work;

/* Tables that a search reads, and what the build said of them. */
typedef struct {
    uint32_t *base, *link, *output; /* `cells` slots each */
    uint8_t *check, *depth;
    uint32_t (*outs)[3]; /* `outputs` slots */
    size_t outputs, cells;
    uint32_t counts[4]; /* kind, accepted, states, cells in use */
} rotspangle_tables;

/* What a search has come to. { 0 } begins one. */
typedef struct {
    uint32_t state, pending;
    size_t place;
    uint64_t moves;
} rotspangle_value;

/* rotspangle_build for so many patterns. After 4 and 5, tables->counts[0] is the row. */
static inline uint32_t rotspangle_make(
    uint32_t kind, const uint8_t *bytes, size_t bytes_length, const uint32_t *ends, const uint32_t *values, size_t patterns,
    rotspangle_work *work, rotspangle_tables *tables)
{
    return rotspangle_build(
        kind, bytes, bytes_length, ends, patterns, values, patterns,
        work->trie, work->states, work->owns, work->outputs, work->notes, work->states, work->spots, work->cells,
        tables->base, tables->cells, tables->link, tables->cells, tables->output, tables->cells,
        tables->check, tables->cells, tables->depth, tables->cells, tables->outs, tables->outputs, tables->counts);
}

/* One of the three searches: rotspangle_fill(rotspangle_overlapping, ..). */
typedef ROTSPANGLE_SEARCH(rotspangle_searching);

static inline uint32_t rotspangle_fill(
    rotspangle_searching *search, const rotspangle_tables *tables, const uint8_t *text, size_t text_length,
    rotspangle_value *value, rotspangle_match *sheet, size_t slots, size_t *written)
{
    return search(
        tables->base, tables->cells, tables->link, tables->cells, tables->output, tables->cells,
        tables->check, tables->cells, tables->depth, tables->cells, (const uint32_t (*)[3])tables->outs, tables->outputs,
        tables->counts[0], tables->counts[1], tables->counts[3], text, text_length,
        &value->state, &value->pending, &value->place, &value->moves, sheet, slots, written);
}

/* What a refusal means, in words. */
static inline const char *rotspangle_meaning(uint32_t refusal)
{
    switch (refusal) {
    case ROTSPANGLE_BAD_KIND: return "the kind is above 2";
    case ROTSPANGLE_BAD_ENDS: return "the ends don't cut the bytes, or ends and values differ in number";
    case ROTSPANGLE_TOO_MANY: return "more than 1,024 patterns";
    case ROTSPANGLE_EMPTY: return "a pattern is empty";
    case ROTSPANGLE_TOO_LONG: return "a pattern has more than 64 bytes";
    case ROTSPANGLE_FEW_STATES: return "too few state slots";
    case ROTSPANGLE_FEW_CELLS: return "too few cell slots, or the list needs more than 65,536 cells";
    case ROTSPANGLE_FEW_OUTPUTS: return "too few output slots";
    case ROTSPANGLE_WRONG_KIND: return "the tables are of a kind that another search is for";
    case ROTSPANGLE_LONG_TEXT: return "the text has more than 65,536 bytes";
    case ROTSPANGLE_DAMAGE: return "the tables or the search value are damaged";
    default: return "no refusal";
    }
}

#ifdef __cplusplus
}
#endif

#endif
