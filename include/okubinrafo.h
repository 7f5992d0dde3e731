/* Okubinrafo for C, Rust, Python and others: the functions that the static library exports.
 *
 * Every call takes any arguments and any lent memory, ends, and answers with 0 (accepted) or the refusal number of
 * the rules. A refused call changes no byte that it was lent; room past an answer keeps its bytes. No function keeps
 * a pointer, allocates or has state.
 *
 * A slice is a pointer and the number of its elements (not of bytes). The pointer is not null, not even for a slice of
 * no elements, and aligned for its type. A slice that a call may write to overlaps no other slice of that call.
 * Points are counted from 0 here and from 1 in files.
 *
 * Two units: the levels of a book, of a load and of a limit are hundredths of a dB; the levels of a network and of its
 * contours are thousandths of a dB, in every call that takes or gives them. No call can tell one unit from the other:
 * 4500, meant as 45.00 dB, is a network or contour level of 4.500 dB.
 */
#ifndef OKUBINRAFO_H
#define OKUBINRAFO_H

#include <stddef.h>
#include <stdint.h>

#define OKUBINRAFO_VERSION "0.2.0"

/* The refusals by name: what a function returns where it doesn't return 0 (RULES, Refusal numbers). */
enum {
    OKUBINRAFO_OUT_OF_RANGE = 1,          /* type, kind, time or mass; or small with 6,000 kg or more */
    OKUBINRAFO_TOO_LIGHT = 2,             /* 150 kg or less */
    OKUBINRAFO_WRONG_IDENTITY = 3,        /* 0, or over 99,999 */
    OKUBINRAFO_ALREADY_STANDS = 4,        /* the identity already stands */
    OKUBINRAFO_DOES_NOT_STAND = 5,        /* the identity doesn't stand */
    OKUBINRAFO_NO_UNUSED_ROW = 6,         /* the book is full */
    OKUBINRAFO_WRONG_LEVELS = 7,          /* another number of levels than points, or one over 12,000 hundredths */
    OKUBINRAFO_NO_LEVELS_HELD = 8,        /* nothing to take back */
    OKUBINRAFO_NOT_SOUND = 9,             /* the book, its number of points, the point asked for, or yes and no */
    OKUBINRAFO_NONE_COMPUTED = 10,        /* movements count at the point and none of them is computed */
    OKUBINRAFO_WRONG_DAYS = 11,           /* outside 1 to 366 */
    OKUBINRAFO_WRONG_NETWORK = 12,        /* size, spacing, origin or count of values */
    OKUBINRAFO_WRONG_NETWORK_LEVEL = 13,  /* over 150,000 thousandths, or no data */
    OKUBINRAFO_TOO_LITTLE_ROOM = 14,      /* less room is lent than the answer needs */
    OKUBINRAFO_WRONG_LEVEL_ASKED = 15,    /* limit over 12,000 hundredths, contour level not 1..150,000 thousandths */
    OKUBINRAFO_REGISTER_OFF_LAYOUT = 16,  /* the text of a register, or a journal's numbers */
    OKUBINRAFO_NETWORK_OFF_LAYOUT = 17,   /* the text of a network */
    OKUBINRAFO_WRONG_FLIGHTS = 18,        /* movements or tracks: too many, columns of unequal length, a value */
    OKUBINRAFO_LEVEL_ELSEWHERE = 19       /* a level other than zero at a point where the movement doesn't count */
};

#ifdef __cplusplus
extern "C" {
#endif

/* A book: five columns lent by the caller, all zero at first. Rows: identities_len, 1 to 50,000; groups and marks have
 * as many numbers, counts and levels have points (1 to 8) numbers a row. counts: 1 where the movement counts; 0 where
 * it doesn't, and there its level is 0 too. levels: hundredths of a dB, 0 to 12,000. */
#define OKUBINRAFO_BOOK                                                                              \
    uint32_t *identities, size_t identities_len, uint32_t *groups, size_t groups_len,                \
    uint32_t *marks, size_t marks_len, uint32_t *counts, size_t counts_len,                          \
    uint32_t *levels, size_t levels_len, uint32_t points
#define OKUBINRAFO_BOOK_READ                                                                         \
    const uint32_t *identities, size_t identities_len, const uint32_t *groups, size_t groups_len,    \
    const uint32_t *marks, size_t marks_len, const uint32_t *counts, size_t counts_len,              \
    const uint32_t *levels, size_t levels_len, uint32_t points

/* type: 0 large, 1 small, 2 helicopter. kind: 0 start, 1 landing. time: second of the local day. mass: kg.
 * given: one number a point, 1 where the movement counts and 0 where it doesn't; another number of them, or one over
 * 1, is refused with 9. */
uint32_t okubinrafo_enter(OKUBINRAFO_BOOK, uint32_t identity, uint32_t type, uint32_t kind, uint32_t time,
                          uint32_t mass, const uint32_t *given, size_t given_len);
/* given: one level a point in hundredths of a dB, 0 to 12,000; 0 where the movement doesn't count. */
uint32_t okubinrafo_supply(OKUBINRAFO_BOOK, uint32_t identity, const uint32_t *given, size_t given_len);
uint32_t okubinrafo_take_back(OKUBINRAFO_BOOK, uint32_t identity);
uint32_t okubinrafo_withdraw(OKUBINRAFO_BOOK, uint32_t identity);

/* A journal: calls one after the other as numbers.
 *   1 enter: identity, type, kind, time, mass, how many yes and no (1 and 0) follow, those.
 *   2 supply: identity, how many levels follow, those levels in hundredths of a dB.
 *   3 take back: identity.
 *   4 withdraw: identity.
 * The calls are made in order, each as the function above would make it; answers: one number a call, 0 or its refusal.
 * Refusals of the whole, before anything changes: 16 the numbers are off this layout, 9, 14 fewer answers than
 * calls. */
uint32_t okubinrafo_replay(OKUBINRAFO_BOOK, const uint32_t *journal, size_t journal_len,
                           uint32_t *answers, size_t answers_len);

/* Over the movements that count at the point. answer: 39 numbers: total; 1 if a level is given, 0 if below zero; the
 * level in hundredths of a dB (0 if below zero); V of the 18 groups; U of the 18 groups. */
uint32_t okubinrafo_load(OKUBINRAFO_BOOK_READ, uint32_t point, uint32_t days, uint64_t *answer, size_t answer_len);
/* How that load comes about, refused as it is. answer: 78 numbers: V, U, S and the scaled energy of each of the 18
 * groups, four a group; upper and lower of the general factor (0 and 0 where no movement counts); P; total; 1 if a
 * level is given, 0 if below zero; the level in hundredths of a dB (0 if below zero). */
uint32_t okubinrafo_account(OKUBINRAFO_BOOK_READ, uint32_t point, uint32_t days, uint64_t *answer, size_t answer_len);
/* limit: hundredths of a dB, 0 to 12,000. answer: 1 number: 1 over, 0 within. */
uint32_t okubinrafo_verdict(OKUBINRAFO_BOOK_READ, uint32_t point, uint32_t days, uint32_t limit,
                            uint32_t *answer, size_t answer_len);

/* A network: levels in thousandths of a dB, 0 to 150,000, row by row from the south, west to east; spacing and the
 * south-west point in metres. */
#define OKUBINRAFO_NETWORK                                                                           \
    const uint32_t *levels, size_t levels_len, uint32_t columns, uint32_t rows,                      \
    uint32_t spacing, uint32_t west, uint32_t south

/* levels: thousandths of a dB, 0 to 150,000. level: the contour level, thousandths of a dB, 1 to 150,000.
 * edges: edge numbers, contour after contour. counts, closed: one a contour (closed is 0 or 1). sizes: 2 numbers: edges
 * listed, contours. No answer has more edges than the network, rows*(columns-1) + (rows-1)*columns. */
uint32_t okubinrafo_contours(OKUBINRAFO_NETWORK, uint32_t level, uint32_t *edges, size_t edges_len,
                             uint32_t *counts, size_t counts_len, uint32_t *closed, size_t closed_len,
                             uint32_t *sizes, size_t sizes_len);
/* levels: thousandths of a dB, 0 to 150,000. level: thousandths of a dB, 1 to 150,000.
 * text: well-known text; size: 1 number, the bytes written. */
uint32_t okubinrafo_print_contours(OKUBINRAFO_NETWORK, uint32_t level, uint8_t *text, size_t text_len,
                                   uint32_t *size, size_t size_len);

/* levels: thousandths of a dB, 0 to 150,000. level: thousandths of a dB, 1 to 150,000.
 * which: 1 number: 0 none, 1 along a horizontal edge, 2 along a vertical edge. fraction: 1 number (0.0 for none). */
uint32_t okubinrafo_crossing(OKUBINRAFO_NETWORK, uint32_t level, uint32_t edge, uint32_t *which, size_t which_len,
                             double *fraction, size_t fraction_len);
/* levels: thousandths of a dB, 0 to 150,000. level: thousandths of a dB, 1 to 150,000.
 * which as above; place: 2 numbers, x and y (0.0 and 0.0 for none). */
uint32_t okubinrafo_map_point(OKUBINRAFO_NETWORK, uint32_t level, uint32_t edge, uint32_t *which, size_t which_len,
                              double *place, size_t place_len);
/* Many edges in one call. levels: thousandths of a dB, 0 to 150,000. level: thousandths of a dB, 1 to 150,000.
 * which: one number an edge; places: two numbers an edge. */
uint32_t okubinrafo_map_points(OKUBINRAFO_NETWORK, uint32_t level, const uint32_t *edges, size_t edges_len,
                               uint32_t *which, size_t which_len, double *places, size_t places_len);

/* A register row, with its CRLF or without. fields: 6 numbers: identity, type, mass, kind, time, 1 if computed.
 * levels: one a point in hundredths of a dB, 0 to 12,000 (0 where not computed). */
uint32_t okubinrafo_read_row(const uint8_t *line, size_t line_len, uint32_t points, uint32_t *fields, size_t fields_len,
                             uint32_t *levels, size_t levels_len);
/* fields and levels as above (a number of fields other than 6 is 9); the text has its CRLF, at most 86 bytes in all;
 * size: 1 number, the bytes written. */
uint32_t okubinrafo_write_row(const uint32_t *fields, size_t fields_len, const uint32_t *levels, size_t levels_len,
                              uint32_t points, uint8_t *text, size_t text_len, uint32_t *size, size_t size_len);

/* header: 5 numbers: columns, rows, spacing, west, south. levels: at most 65,536, in thousandths of a dB, 0 to 150,000.
 * A value has two decimals or three, and both may stand in one file: 45.00 is read as 45000 and 45.001 as 45001. */
uint32_t okubinrafo_read_network(const uint8_t *text, size_t text_len, uint32_t *header, size_t header_len,
                                 uint32_t *levels, size_t levels_len);
/* levels: thousandths of a dB, 0 to 150,000. text: each with three decimals. size: 1 number, the bytes written. */
uint32_t okubinrafo_write_network(OKUBINRAFO_NETWORK, uint8_t *text, size_t text_len, uint32_t *size, size_t size_len);

/* Radar tracks (RULES, Radar tracks). A movement has eight columns and a track seven, up to 50,000 of each; either list
 * may be empty. dates: year*10000 + month*100 + day, as 20260331; times: second of that day; classes: 0 aeroplane,
 * 1 helicopter; kinds: 0 start, 1 landing; runways, airports, types: any numbers, which agree if they are equal (a name
 * of up to four capital letters or digits is its bytes as one number, the first the most significant: "06" is 0x3036);
 * circuits: any number but 0 is a circuit.
 * tracks: one number a movement: the place of its track in the list from 1, or 0 for none. Refusals: 18, then 14. */
uint32_t okubinrafo_couple(const uint32_t *dates, size_t dates_len, const uint32_t *times, size_t times_len,
                           const uint32_t *classes, size_t classes_len, const uint32_t *kinds, size_t kinds_len,
                           const uint32_t *runways, size_t runways_len, const uint32_t *airports, size_t airports_len,
                           const uint32_t *types, size_t types_len, const uint32_t *circuits, size_t circuits_len,
                           const uint32_t *track_dates, size_t track_dates_len,
                           const uint32_t *track_times, size_t track_times_len,
                           const uint32_t *track_classes, size_t track_classes_len,
                           const uint32_t *track_kinds, size_t track_kinds_len,
                           const uint32_t *track_runways, size_t track_runways_len,
                           const uint32_t *track_airports, size_t track_airports_len,
                           const uint32_t *track_types, size_t track_types_len, uint32_t *tracks, size_t tracks_len);

/* The sentence for a refusal's number, in English, ASCII, no line end, at most 120 bytes; size: 1 number, the bytes
 * written. A number that is no refusal: 0 bytes. 14 last. */
uint32_t okubinrafo_sentence(uint32_t refusal, uint8_t *text, size_t text_len, uint32_t *size, size_t size_len);

#ifdef __cplusplus
}
#endif
#endif
