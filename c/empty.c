/* Empty slices as C writes them, (NULL, 0): each slice of each function; and numbers that are no network.
 *   c/library && cc c/empty.c target/staticlib/libpinduguil.a -o empty && ./empty */
#include <stdio.h>

#include "pinduguil.h"

enum { COLUMNS = 10, ROWS = 8 };

static void show(const char *what, uint32_t answer) {
    if (answer < PINDUGUIL_REFUSED)
        printf("%s: %u\n", what, (unsigned)answer);
    else if (answer == PINDUGUIL_NO_REQUEST)
        printf("%s: no request\n", what);
    else
        printf("%s: no %u\n", what, (unsigned)(answer - PINDUGUIL_REFUSED));
}

int main(void) {
    static uint8_t map[COLUMNS * ROWS], out[PINDUGUIL_MOST_HOPS];
    const uint8_t letters[] = {'E', 'E'};
    uint64_t index[1];
    uint32_t packet[5] = {1, 2, 0, 1, 4};

    uint64_t rounds[1] = {9};
    show("mark, no map", pinduguil_mark(COLUMNS, ROWS, NULL, 0, out, sizeof out, rounds, 1));
    show("mark, no output", pinduguil_mark(COLUMNS, ROWS, map, sizeof map, NULL, 0, rounds, 1));
    printf("rounds %u\n", (unsigned)rounds[0]);
    show("mark, no rounds", pinduguil_mark(COLUMNS, ROWS, map, sizeof map, out, sizeof out, NULL, 0));
    show("mark, none of them", pinduguil_mark(COLUMNS, ROWS, NULL, 0, NULL, 0, NULL, 0));
    show("mark, no columns", pinduguil_mark(0, ROWS, NULL, 0, NULL, 0, NULL, 0));

    uint32_t list[4] = {9, 9, 9, 9};
    show("box, no map", pinduguil_box(COLUMNS, ROWS, NULL, 0, list, 4));
    show("box, no list, no fault", pinduguil_box(COLUMNS, ROWS, map, sizeof map, NULL, 0));
    show("box, a list, no fault", pinduguil_box(COLUMNS, ROWS, map, sizeof map, list, 4));
    map[3 * COLUMNS + 4] = 1;
    show("box, no list, a fault", pinduguil_box(COLUMNS, ROWS, map, sizeof map, NULL, 0));
    printf("list %u %u %u %u\n", (unsigned)list[0], (unsigned)list[1], (unsigned)list[2], (unsigned)list[3]);
    show("box, a list, a fault", pinduguil_box(COLUMNS, ROWS, map, sizeof map, list, 4));
    printf("list %u %u %u %u\n", (unsigned)list[0], (unsigned)list[1], (unsigned)list[2], (unsigned)list[3]);
    map[3 * COLUMNS + 4] = 0;
    show("box, neither", pinduguil_box(COLUMNS, ROWS, NULL, 0, NULL, 0));
    show("box, no columns", pinduguil_box(0, ROWS, NULL, 0, NULL, 0));

    show("route, no map", pinduguil_route(PINDUGUIL_FIRST, COLUMNS, ROWS, NULL, 0, 1, 2, 1, 4, out, sizeof out));
    show("route, no output", pinduguil_route(PINDUGUIL_FIRST, COLUMNS, ROWS, map, sizeof map, 1, 2, 1, 4, NULL, 0));
    show("route, no output, no hops", pinduguil_route(PINDUGUIL_SECOND, COLUMNS, ROWS, map, sizeof map, 1, 2, 1, 2, NULL, 0));
    show("route, neither", pinduguil_route(PINDUGUIL_SECOND, COLUMNS, ROWS, NULL, 0, 1, 2, 1, 4, NULL, 0));

    uint8_t other[8] = {0};
    uint64_t hops[1] = {9}, refusal[1] = {7};
    show("pick, no map", pinduguil_pick(COLUMNS, ROWS, NULL, 0, 1, 2, 1, 4, out, sizeof out, other, sizeof other, hops, 1, refusal, 1));
    printf("hops %u, refusal %u\n", (unsigned)hops[0], (unsigned)refusal[0]);
    show("pick, no first", pinduguil_pick(COLUMNS, ROWS, map, sizeof map, 1, 2, 1, 4, NULL, 0, other, sizeof other, hops, 1, refusal, 1));
    printf("hops %u, refusal %u, letters %.2s\n", (unsigned)hops[0], (unsigned)refusal[0], (const char *)other);
    hops[0] = 9;
    show("pick, no second", pinduguil_pick(COLUMNS, ROWS, map, sizeof map, 1, 2, 1, 4, out, sizeof out, NULL, 0, hops, 1, refusal, 1));
    printf("hops %u, refusal %u, letters %.2s\n", (unsigned)hops[0], (unsigned)refusal[0], (const char *)out);
    hops[0] = 9;
    show("pick, no outputs", pinduguil_pick(COLUMNS, ROWS, map, sizeof map, 1, 2, 1, 4, NULL, 0, NULL, 0, hops, 1, refusal, 1));
    printf("hops %u, refusal %u\n", (unsigned)hops[0], (unsigned)refusal[0]);
    show("pick, no outputs, no hops", pinduguil_pick(COLUMNS, ROWS, map, sizeof map, 1, 2, 1, 2, NULL, 0, NULL, 0, hops, 1, refusal, 1));
    printf("hops %u, refusal %u\n", (unsigned)hops[0], (unsigned)refusal[0]);
    show("pick, no count",
         pinduguil_pick(COLUMNS, ROWS, map, sizeof map, 1, 2, 1, 4, out, sizeof out, other, sizeof other, NULL, 0, refusal, 1));
    show("pick, no refusal", pinduguil_pick(COLUMNS, ROWS, NULL, 0, 1, 2, 1, 4, out, sizeof out, other, sizeof other, hops, 1, NULL, 0));
    show("pick, none of them", pinduguil_pick(COLUMNS, ROWS, NULL, 0, 1, 2, 1, 4, NULL, 0, NULL, 0, NULL, 0, NULL, 0));

    uint64_t count[1] = {9};
    uint32_t answers[1] = {7};
    const uint32_t sends[] = {1, 2, 1, 4};
    show("table, no map", pinduguil_route_batch(PINDUGUIL_FIRST, COLUMNS, ROWS, NULL, 0, sends, 4, answers, 1, out, sizeof out, count, 1));
    show("table, no answers",
         pinduguil_route_batch(PINDUGUIL_FIRST, COLUMNS, ROWS, map, sizeof map, sends, 4, NULL, 0, out, sizeof out, count, 1));
    printf("answer %u, count %u\n", (unsigned)answers[0], (unsigned)count[0]);
    show("table, no output", pinduguil_route_batch(PINDUGUIL_FIRST, COLUMNS, ROWS, map, sizeof map, sends, 4, answers, 1, NULL, 0, count, 1));
    printf("answer %u, count %u\n", (unsigned)answers[0], (unsigned)count[0]);
    show("table, no count",
         pinduguil_route_batch(PINDUGUIL_FIRST, COLUMNS, ROWS, map, sizeof map, sends, 4, answers, 1, out, sizeof out, NULL, 0));
    printf("answer %u, count %u\n", (unsigned)answers[0], (unsigned)count[0]);
    show("table, no sends", pinduguil_route_batch(PINDUGUIL_FIRST, COLUMNS, ROWS, map, sizeof map, NULL, 0, NULL, 0, NULL, 0, count, 1));
    show("table, none of them", pinduguil_route_batch(PINDUGUIL_FIRST, COLUMNS, ROWS, NULL, 0, NULL, 0, NULL, 0, NULL, 0, NULL, 0));

    index[0] = 9;
    show("judge, no map", pinduguil_judge(PINDUGUIL_FIRST, COLUMNS, ROWS, NULL, 0, 1, 2, 1, 4, letters, sizeof letters, index, 1));
    printf("index %u\n", (unsigned)index[0]);
    index[0] = 9;
    show("judge, no letters", pinduguil_judge(PINDUGUIL_FIRST, COLUMNS, ROWS, map, sizeof map, 1, 2, 1, 4, NULL, 0, index, 1));
    printf("index %u\n", (unsigned)index[0]);
    show("judge, no letters, there already",
         pinduguil_judge(PINDUGUIL_FIRST, COLUMNS, ROWS, map, sizeof map, 1, 2, 1, 2, NULL, 0, index, 1));
    show("judge, no index", pinduguil_judge(PINDUGUIL_FIRST, COLUMNS, ROWS, map, sizeof map, 1, 2, 1, 4, letters, sizeof letters, NULL, 0));
    show("judge, none of them", pinduguil_judge(PINDUGUIL_FIRST, COLUMNS, ROWS, NULL, 0, 1, 2, 1, 4, NULL, 0, NULL, 0));

    show("move on, no map", pinduguil_move_on(PINDUGUIL_FIRST, COLUMNS, ROWS, NULL, 0, packet, 5));
    show("move on, no record", pinduguil_move_on(PINDUGUIL_FIRST, COLUMNS, ROWS, map, sizeof map, NULL, 0));
    show("move on, neither", pinduguil_move_on(PINDUGUIL_FIRST, COLUMNS, ROWS, NULL, 0, NULL, 0));

    /* No network: nothing is written, whatever is handed over. */
    for (uint32_t network = 0; network <= 3; network += 3) {
        printf("network %u\n", (unsigned)network);
        answers[0] = 7;
        count[0] = index[0] = 9;
        out[0] = 'x';
        show("route", pinduguil_route(network, COLUMNS, ROWS, map, sizeof map, 1, 2, 1, 4, out, sizeof out));
        show("route, neither", pinduguil_route(network, COLUMNS, ROWS, NULL, 0, 1, 2, 1, 4, NULL, 0));
        show("table", pinduguil_route_batch(network, COLUMNS, ROWS, map, sizeof map, sends, 4, answers, 1, out, sizeof out, count, 1));
        show("table, none of them", pinduguil_route_batch(network, COLUMNS, ROWS, NULL, 0, NULL, 0, NULL, 0, NULL, 0, NULL, 0));
        show("judge", pinduguil_judge(network, COLUMNS, ROWS, map, sizeof map, 1, 2, 1, 4, letters, sizeof letters, index, 1));
        show("judge, none of them", pinduguil_judge(network, COLUMNS, ROWS, NULL, 0, 1, 2, 1, 4, NULL, 0, NULL, 0));
        show("move on", pinduguil_move_on(network, COLUMNS, ROWS, map, sizeof map, packet, 5));
        show("move on, neither", pinduguil_move_on(network, COLUMNS, ROWS, NULL, 0, NULL, 0));
        printf("byte %c, answer %u, count %u, index %u, ", out[0], (unsigned)answers[0], (unsigned)count[0], (unsigned)index[0]);
        printf("packet at (%u, %u)\n", (unsigned)packet[0], (unsigned)packet[1]);
    }

    uint64_t written[1] = {9};
    show("letters to legs, no output", pinduguil_letters_to_legs(letters, sizeof letters, NULL, 0, written, 1));
    printf("written %u\n", (unsigned)written[0]);
    show("letters to legs, no letters", pinduguil_letters_to_legs(NULL, 0, out, sizeof out, written, 1));
    printf("written %u, byte %u\n", (unsigned)written[0], (unsigned)out[0]);
    show("letters to legs, no count", pinduguil_letters_to_legs(letters, sizeof letters, out, sizeof out, NULL, 0));
    printf("bytes %u %u\n", (unsigned)out[0], (unsigned)out[1]);
    show("letters to legs, none of them", pinduguil_letters_to_legs(NULL, 0, NULL, 0, NULL, 0));

    const uint8_t file[] = {1, 4}, no_legs[] = {0};
    show("legs to letters, no file", pinduguil_legs_to_letters(NULL, 0, out, sizeof out, written, 1));
    show("legs to letters, no output", pinduguil_legs_to_letters(file, sizeof file, NULL, 0, written, 1));
    printf("written %u\n", (unsigned)written[0]);
    show("legs to letters, no output, no legs", pinduguil_legs_to_letters(no_legs, sizeof no_legs, NULL, 0, written, 1));
    printf("written %u\n", (unsigned)written[0]);
    show("legs to letters, no count", pinduguil_legs_to_letters(file, sizeof file, out, sizeof out, NULL, 0));
    printf("letters %.2s\n", (const char *)out);
    show("legs to letters, none of them", pinduguil_legs_to_letters(NULL, 0, NULL, 0, NULL, 0));

    show("draw, no output", pinduguil_draw(COLUMNS, ROWS, 7, 3, NULL, 0));
    show("draw, no output, no draws", pinduguil_draw(COLUMNS, ROWS, 7, 0, NULL, 0));
    show("draw, no columns", pinduguil_draw(0, 0, 7, 1001, NULL, 0));
    show("draw, no rows", pinduguil_draw(1, 0, 7, 1001, NULL, 0));
    show("draw, no place", pinduguil_draw(4, ROWS, 7, 1, NULL, 0));
    out[1] = 9;
    show("draw, no place, no draws", pinduguil_draw(1, 1, 7, 0, out, sizeof out));
    printf("bytes %u %u\n", (unsigned)out[0], (unsigned)out[1]);
    return 0;
}
