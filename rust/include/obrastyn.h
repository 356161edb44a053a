/* Proved planning of flex jumpers, for C. Link target/staticlib/libcatalog_c.a, which `tools/build` proves and writes.
   A row is a pointer and a count of columns. No call has a precondition beyond valid pointers; a refusal writes nothing. */
#ifndef OBRASTYN_H
#define OBRASTYN_H

#include <stddef.h>
#include <stdint.h>

/* The limits of a pad's column and of an offset; beyond them is refusal 4 (COLUMN) or 7 (OFFSET). Pads may stand left of the datum (column 0), right of
   it, or on both sides. A wire reaches as far as its pads with the offset: from column -196605 to 196605. */
#define OBRASTYN_FIRST_COLUMN (-65535)
#define OBRASTYN_LAST_COLUMN 65535
#define OBRASTYN_LOWEST_OFFSET (-131070)
#define OBRASTYN_HIGHEST_OFFSET 131070

/* The greatest separation; beyond it is refusal 6 (TRACKS). No rows need more. A wire leaves its bottom pad straight up, as beside a stiffener: only its first
   point stands on track 0, and only its last on track s. So separations 0 and 1 fit alike, and a least or best separation is never 1. */
#define OBRASTYN_MOST_TRACKS 2049

/* All the result numbers of an answer; what an answer doesn't speak of is 0. */
typedef struct {
    uint8_t refusal;   /* 0, or 1 to 16 */
    size_t place;      /* COLUMN, ORDER: the place; NOOFFSET: the first pair that sets the lowest; BADWIRE: the wire */
    size_t second;     /* NOOFFSET: the first pair that sets the highest; BADWIRE: the track */
    size_t separation;
    int32_t lowest;
    int32_t highest;
    size_t pair;       /* the witness, and its side: 1 RIGHT, 2 LEFT */
    uint8_t side;
    size_t count;      /* differences read */
} obrastyn_numbers;

/* Refusals 1 to 5. */
obrastyn_numbers obrastyn_rows(const int32_t *a, size_t an, const int32_t *b, size_t bn);
/* Does separation s fit at offset d? If not, side 1 (RIGHT) says that top pad `pair` is too far right for bottom pad `pair + s - 1`, side 2 (LEFT) that top pad
   `pair + s - 1` is too far left for bottom pad `pair`; at s = 0 both are pads `pair`. Refusals 1 to 7, then 10. */
obrastyn_numbers obrastyn_fit(const int32_t *a, size_t an, const int32_t *b, size_t bn, size_t s, int32_t d);
/* The least separation at offset d, at most one more than there are pairs; above 0 the witness at one track fewer. Refusals 1 to 5, then 7. */
obrastyn_numbers obrastyn_least(const int32_t *a, size_t an, const int32_t *b, size_t bn, int32_t d);
/* The offsets that fit at separation s. Where s is above the number of pairs, all do, and the range is that of the accepted ones. Refusals 1 to 6, then 11. */
obrastyn_numbers obrastyn_range(const int32_t *a, size_t an, const int32_t *b, size_t bn, size_t s);
/* The best separation; the ladder goes to the front of the buffer (24 numbers are always enough). The ladder's numbers are the halving's own: 0 for a best
   separation of 0, else one less than it. Refusals 1 to 5, then 9. */
obrastyn_numbers obrastyn_best(const int32_t *a, size_t an, const int32_t *b, size_t bn, size_t *ladder, size_t room);
/* One wire into s + 1 places: the column on which it enters each track; from s = 1 on the first two are its bottom pad's. Refusals 1 to 10. */
obrastyn_numbers obrastyn_draw_wire(const int32_t *a, size_t an, const int32_t *b, size_t bn, size_t s, int32_t d, size_t wire,
                                    int32_t *out, size_t room);
/* All wires, wire after wire, into n(s + 1) places. Refusals 1 to 7, 9 and 10. */
obrastyn_numbers obrastyn_draw_all(const int32_t *a, size_t an, const int32_t *b, size_t bn, size_t s, int32_t d, int32_t *out,
                                   size_t room);
/* Is a table of n(s + 1) columns a legal wiring? A wire that steps aside on track 0 is at fault there. Refusals 1 to 7, 9 and 16. */
obrastyn_numbers obrastyn_check(const int32_t *a, size_t an, const int32_t *b, size_t bn, size_t s, int32_t d, const int32_t *table,
                                size_t room);

/* A part is a jumper with some of its pads left bare. `stays` has a byte for each pair: 0 for a pair that is dropped, anything else for one that stays.
   Does the kept record, separation s at offset d, still serve the part? No refusal exactly when what remains has a legal wiring there; where the whole jumper
   has one, it does. Refusal 1 if the three counts aren't equal, 2 if no pair stays, 3 to 7 of the whole rows; then 10, with `pair` and `side` as obrastyn_fit
   shows them, but counted among the pairs that stay. Takes some 17,000 bytes of stack, for the pads that stay. */
obrastyn_numbers obrastyn_still_fits(const int32_t *a, size_t an, const int32_t *b, size_t bn, const uint8_t *stays, size_t sn, size_t s, int32_t d);
/* The route of the part out of the old route's table: the wires that stay, one after the other, into the first (pairs that stay)(s + 1) places; those beyond
   are untouched. `out` may not overlap `table`, the rows or the bytes. Refusals 1 to 7 as above; 9 if `table` has fewer than n(s + 1) places or `out` too few
   for the part; 16 as obrastyn_check says of the old table, with the wire's number there. */
obrastyn_numbers obrastyn_part_route(const int32_t *a, size_t an, const int32_t *b, size_t bn, const uint8_t *stays, size_t sn, size_t s, int32_t d,
                                     const int32_t *table, size_t places, int32_t *out, size_t room);

/* Where the stretch at fault lies: row 0 is the bottom row, 1 the top row; no pads where there is no misfit, else s pads (one at separation 0). */
typedef struct {
    uint8_t row;
    size_t start;
    size_t pads;
} obrastyn_place;
obrastyn_place obrastyn_stretch(const int32_t *a, size_t an, const int32_t *b, size_t bn, size_t s, int32_t d);

/* What a line orders. separation 65535 is "least", offset INT32_MIN is "best": neither is accepted as a number. */
typedef struct {
    size_t bottom; /* where its pads start in each pool, and how many pairs they are */
    size_t top;
    size_t pairs;
    uint32_t separation;
    int32_t offset;
} obrastyn_order;

/* One line of an order form. */
typedef struct {
    obrastyn_order order;
    obrastyn_numbers answer;
} obrastyn_line;

/* One record answered by value: the record with its answer, its order as it was. */
obrastyn_line obrastyn_answer(obrastyn_line line, const int32_t *a, size_t an, const int32_t *b, size_t bn);

/* From target/staticlib/libform.a, which `tools/build` proves and writes too. 0, or 12 (LINE) for no such line or over 64 lines, and then nothing is written. */
uint8_t answer_line(obrastyn_line *table, size_t lines, size_t k, const int32_t *a, size_t an, const int32_t *b, size_t bn);
uint8_t answer_all(obrastyn_line *table, size_t lines, const int32_t *a, size_t an, const int32_t *b, size_t bn);

#endif
