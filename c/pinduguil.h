/* The operations of Pinduguil for C: link the static library that `c/library` writes, target/staticlib/libpinduguil.a.
 *
 * Rows and columns are counted from 0; east raises the column, north the row. A map is columns * rows bytes, row 0 first:
 * 0 sound, 1 faulty. Letters are the bytes 'E', 'N', 'S' and 'W'.
 *
 * A slice is a pointer and then the number of its elements. Where the number is 0 the pointer may be NULL: nothing is read or written
 * through it. An output overlaps nothing else that is handed over. All other arguments may be anything: what is wrong is refused by its
 * number. Maps, sends, hand-ins, letters and files are only read.
 *
 * There are two networks. On the first, EN and ES turns are forbidden in even columns, NW and SW in odd ones; on the second odd and even
 * are exchanged, there and in the hop rules. A function that takes the network and is given another number than 1 or 2 has no request: it
 * answers PINDUGUIL_NO_REQUEST, whatever else is wrong, and writes nothing.
 *
 * Refusals, in the order in which they are tested:
 *   1 columns not 1 to 64            6 source or destination off the mesh
 *   2 rows not 1 to 64               7 source or destination in a block
 *   3 map length not columns * rows  8 a block near the destination in its row: a node of one, 1 or 2 columns away
 *   4 a map byte above 1             9 a hop by the rules would be unlawful
 *   5 a fault where none is allowed  10 the output is too short
 * For a route 9 comes to this: NW and SW are forbidden in the source's column, and either its west neighbour is in a block and the
 * destination in another row or to the west, or it is in column 0 (so the network is the second) and the destination in another row.
 * Marking and boxes are refused by 1 to 5, then by 10; for boxes that is a list of fewer than four numbers for each fault.
 * A table of sends as a whole is refused by 1 to 5, then by
 *   18 the list isn't whole sends, or there are fewer entries for answers than sends
 * Letters to legs are refused by 11, then 23, then 10; legs to letters by the first of 19 to 21 that is met from the file's front, then 22,
 * then 10:
 *   11 a byte that is no letter      21 a leg in its forerunner's direction
 *   19 the file is cut short         22 bytes left over after the last leg
 *   20 a number over 65,535,         23 a leg of over 16,384 letters,
 *      or with a group too many         or over 65,535 legs
 * Drawing a map is refused by 1 and 2, then by 24, then by 10:
 *   24 more than 1,000 draws, or any draw where no place is allowed: on fewer than 5 columns or 3 rows
 */
#ifndef PINDUGUIL_H
#define PINDUGUIL_H

#include <stddef.h>
#include <stdint.h>

/* An answer that is this or more is this plus the number of a refusal. */
#define PINDUGUIL_REFUSED 65536u

/* The answer where there is no request: no network, or no record of a packet. No refusal has the number 0. */
#define PINDUGUIL_NO_REQUEST 65536u

/* The networks. */
#define PINDUGUIL_FIRST 1u
#define PINDUGUIL_SECOND 2u

/* No route has more hops: an output of this many bytes has room for every route. */
#define PINDUGUIL_MOST_HOPS 4034

/* No mesh has more nodes: an output of this many bytes has room for every map. */
#define PINDUGUIL_MOST_NODES 4096

/* The refusal of a table of sends that is no table. */
#define PINDUGUIL_NOT_SENDS 18u

/* What is wrong with a hand-in, in the order in which it is tested: letter by letter the first six, after the last letter the seventh.
 * Rule 1 of document 001 is about EN and NW turns, rule 2 about ES and SW, on both networks. */
#define PINDUGUIL_NO_LETTER 11u
#define PINDUGUIL_LEAVES_MESH 12u
#define PINDUGUIL_REVERSES 13u
#define PINDUGUIL_BREAKS_RULE_1 14u
#define PINDUGUIL_BREAKS_RULE_2 17u
#define PINDUGUIL_ENTERS_BLOCK 15u
#define PINDUGUIL_NOT_ARRIVED 16u

/* What is wrong with a file of legs, or with letters that should become one; for these also PINDUGUIL_NO_LETTER. */
#define PINDUGUIL_CUT_SHORT 19u
#define PINDUGUIL_BAD_NUMBER 20u
#define PINDUGUIL_SAME_DIRECTION 21u
#define PINDUGUIL_LEFT_OVER 22u
#define PINDUGUIL_TOO_LONG 23u

/* The refusal of draws, and how many there may be. */
#define PINDUGUIL_BAD_DRAWS 24u
#define PINDUGUIL_MOST_DRAWS 1000u

#ifdef __cplusplus
extern "C" {
#endif

/* Mark blocks. Writes 0 safe, 1 faulty, 2 unsafe for each node and answers the number of blocks, at most 4,096; or
 * PINDUGUIL_REFUSED plus 1 to 5 or 10. Bytes of out beyond the map's length are left alone; on a refusal all of them are.
 * The number of rounds is written to rounds[0] if there is room for it: a round changes every node that the marking before it makes unsafe, all
 * at once, and the last one, in which nothing changes, counts too. It is at most the number of unsafe nodes plus 1. On a refusal rounds[0] is
 * left alone; numbers of rounds beyond the first always are. */
uint32_t pinduguil_mark(uint32_t columns, uint32_t rows, const uint8_t *map, size_t map_length,
                        uint8_t *out, size_t out_length, uint64_t *rounds, size_t rounds_length);

/* Blocks from rectangles, without marking. Each fault is a box of one node. Two boxes less than 3 apart in column and less than 2 apart in row
 * are replaced by the one box around both, and the same is done with the shorter list, until none are that close. Apart is the difference of the
 * nearest numbers, 0 where they overlap. The boxes that are left are the blocks: as many as pinduguil_mark answers, and a node is in one exactly
 * if it is marked 1 or 2.
 * Writes four numbers for each box, lowest row, lowest column, highest row and highest column, boxes by lowest row, then lowest column, and
 * answers the number of boxes, at most 4,096; or PINDUGUIL_REFUSED plus 1 to 5 or 10. The list needs four numbers for each fault of the map: one
 * of 4 * PINDUGUIL_MOST_NODES always has room. Numbers after the last box, up to four for each fault, become 0; later ones are left alone. On a
 * refusal all of them are. */
uint32_t pinduguil_box(uint32_t columns, uint32_t rows, const uint8_t *map, size_t map_length, uint32_t *list, size_t list_length);

/* Route from a source to (row, column). Writes the letters of the hops and answers their number, at most PINDUGUIL_MOST_HOPS; or
 * PINDUGUIL_REFUSED plus 1 to 10. Bytes of out after the letters are left alone; on a refusal all of them are. */
uint32_t pinduguil_route(uint32_t network, uint32_t columns, uint32_t rows, const uint8_t *map, size_t map_length,
                         uint32_t source_row, uint32_t source_column, uint32_t row, uint32_t column,
                         uint8_t *out, size_t out_length);

/* Pick the better network: routes on both, each into its own buffer, first and second; the map is checked and marked once. Answers the
 * network with the shorter route, PINDUGUIL_FIRST on a tie or if only it was served. Its letters stand at the start of its buffer; their
 * number is written to letters[0] and 0 to refusal[0], each if there is room for it. If the other network was served too, its letters stand in
 * its buffer as well. A network that was refused, by 10 too, leaves its buffer alone; bytes of a buffer after the letters are left alone.
 * Answers 0 if both refuse: then the first network's refusal, 1 to 10, is written to refusal[0] if there is room for it, and nothing else.
 * Numbers of letters and refusal beyond the first are left alone. */
uint32_t pinduguil_pick(uint32_t columns, uint32_t rows, const uint8_t *map, size_t map_length,
                        uint32_t source_row, uint32_t source_column, uint32_t row, uint32_t column,
                        uint8_t *first, size_t first_length, uint8_t *second, size_t second_length,
                        uint64_t *letters, size_t letters_length, uint64_t *refusal, size_t refusal_length);

/* A whole table of sends on a network and one map, which is checked and marked once. A send is four numbers: source row and column,
 * destination row and column. Each in turn is answered as pinduguil_route would answer it with the part of out that is still free: its entry
 * of answers is the number of its hops, whose letters stand after those of the sends before it, or PINDUGUIL_REFUSED plus 6 to 10. One that is
 * refused takes no room, so a later, shorter one may still fit; with PINDUGUIL_MOST_HOPS bytes for each send all fit.
 * Answers 0, and the number of all letters is written to letters[0] if there is room for it; or a refusal, 1 to 5 or PINDUGUIL_NOT_SENDS, and
 * then nothing is written. Entries of answers beyond the last send, bytes of out after the letters and numbers of letters beyond the
 * first are left alone. */
uint32_t pinduguil_route_batch(uint32_t network, uint32_t columns, uint32_t rows, const uint8_t *map, size_t map_length,
                               const uint32_t *sends, size_t sends_length, uint32_t *answers, size_t answers_length,
                               uint8_t *out, size_t out_length, uint64_t *letters, size_t letters_length);

/* Judge a hand-in: letters that should lead from a source to (row, column) by a network's turns. Answers 0 if it is passed, or what is wrong:
 * a refusal 1 to 7, or 11 not a letter, 12 leaves the mesh, 13 reverses, 14 breaks rule 1, 17 breaks rule 2, 15 enters a block, 16 does not
 * end at the destination. If index has room, index[0] is written with each of these answers: the hand-in's length (0 and 16), the index of the
 * wrong letter (11 to 15 and 17), or 0 (refusals 1 to 7). Numbers of index beyond the first are left alone. */
uint32_t pinduguil_judge(uint32_t network, uint32_t columns, uint32_t rows, const uint8_t *map, size_t map_length,
                         uint32_t source_row, uint32_t source_column, uint32_t row, uint32_t column,
                         const uint8_t *letters, size_t letters_length, uint64_t *index, size_t index_length);

/* Move on: one hop of a packet. Its record is five numbers: row, column, last hop, destination row, destination column. Last hops in
 * numbers: 0 none, 1 E, 2 N, 3 S, 4 W. Answers the letter of the hop, and the record shows the new place and the last hop; or 0 if it has
 * arrived; or PINDUGUIL_REFUSED plus 1 to 9. The record itself is looked at before any refusal: if it hasn't exactly five numbers with a
 * last hop of 0 to 4, the answer is PINDUGUIL_NO_REQUEST, whatever else is wrong. Where no letter is answered the record is left alone. */
uint32_t pinduguil_move_on(uint32_t network, uint32_t columns, uint32_t rows, const uint8_t *map, size_t map_length,
                           uint32_t *packet, size_t packet_length);

/* Letters to legs: writes the file of a route's straight legs. A file is numbers in groups of seven bits, lowest group first, the top bit set
 * on all groups but a number's last, and never a group more than needed. First the number of legs, then each leg as (length - 1) * 4 plus its
 * direction's code: 0 E, 1 N, 2 W, 3 S. Neighbouring legs differ in direction, and no number exceeds 65,535. The file of no letters is one
 * byte, 0. The file of n letters has at most n + 3 bytes: an output of that many always has room.
 * Answers 0, and the number of bytes is written to written[0] if there is room for it; or 11, 23 or 10, and then nothing is written. A byte
 * that is no letter is looked for in all letters first. Bytes of out after the file and numbers of written beyond the first are left alone. */
uint32_t pinduguil_letters_to_legs(const uint8_t *letters, size_t letters_length, uint8_t *out, size_t out_length,
                                   uint64_t *written, size_t written_length);

/* Legs to letters: writes the letters of such a file. They needn't be a route: a leg may lead back over the one before it. A leg has at most
 * 16,384 letters: an output of that many for each leg always has room, and one of PINDUGUIL_MOST_HOPS for the file of a route.
 * Answers 0, and the number of letters is written to written[0] if there is room for it; or 19 to 22 or 10, and then nothing is written. At
 * one number 19 and 20 come before 21, and a third group with its top bit set is refused by 20 there, even at the file's end. An empty file is
 * cut short. Bytes of out after the letters and numbers of written beyond the first are left alone. */
uint32_t pinduguil_legs_to_letters(const uint8_t *file, size_t file_length, uint8_t *out, size_t out_length,
                                   uint64_t *written, size_t written_length);

/* Draw a map by number: writes the map of a seed, columns * rows bytes, and answers its number of distinct faults, at most draws; or
 * PINDUGUIL_REFUSED plus 1, 2, 24 or 10. Every function that takes a map takes this one with these columns and rows: 1 to 5 never refuse it.
 * The places where a fault is allowed, rows 1 to rows - 2 and columns 2 to columns - 3, are numbered from 0, west to east and row by row
 * from the lowest. The state begins as the seed. Each draw makes it 1,664,525 * state + 1,013,904,223, wrapping at 32 bits, and sets a fault at
 * the place whose number is the whole part of state * (number of places) / 2^32. A place that is drawn again stays a fault.
 * Bytes of out beyond the map are left alone; on a refusal all of them are. */
uint32_t pinduguil_draw(uint32_t columns, uint32_t rows, uint32_t seed, uint32_t draws, uint8_t *out, size_t out_length);

#ifdef __cplusplus
}
#endif

#endif
