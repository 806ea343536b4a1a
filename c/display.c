/* A bench display: marks a map and lists its boxes; on each network routes a packet, judges the route and moves the packet along it; then a
 * table of sends, hand-ins that break a turn rule, the better of both networks, and maps drawn by number.
 *   c/library && cc c/display.c target/staticlib/libpinduguil.a -o display && ./display */
#include <stdio.h>

#include "pinduguil.h"

enum { COLUMNS = 10, ROWS = 8 };

static uint8_t map[COLUMNS * ROWS], marks[COLUMNS * ROWS], letters[PINDUGUIL_MOST_HOPS], others[PINDUGUIL_MOST_HOPS];

static void show_route(uint32_t hops, const uint8_t *route) {
    printf("ok %u %.*s\n", (unsigned)hops, (int)hops, (const char *)route);
}

/* Returns 1, the status of a program that cannot go on. */
static int show_refusal(uint32_t refusal) {
    printf("no %u\n", (unsigned)refusal);
    return 1;
}

/* From (1, 5) to (6, 5): the route, how it is judged, and the packet hop by hop. Returns 0 if nothing is refused. */
static int follow(uint32_t network) {
    uint32_t hops = pinduguil_route(network, COLUMNS, ROWS, map, sizeof map, 1, 5, 6, 5, letters, sizeof letters);
    if (hops >= PINDUGUIL_REFUSED) return show_refusal(hops - PINDUGUIL_REFUSED);
    printf("network %u: ", (unsigned)network);
    show_route(hops, letters);

    uint64_t index[1] = {0};
    uint32_t wrong = pinduguil_judge(network, COLUMNS, ROWS, map, sizeof map, 1, 5, 6, 5, letters, hops, index, 1);
    printf("judged %u, index %llu\n", (unsigned)wrong, (unsigned long long)index[0]);

    uint32_t packet[5] = {1, 5, 0, 6, 5};
    for (;;) {
        uint32_t moved = pinduguil_move_on(network, COLUMNS, ROWS, map, sizeof map, packet, 5);
        if (moved == 0) return 0;
        if (moved >= PINDUGUIL_REFUSED) return show_refusal(moved - PINDUGUIL_REFUSED);
        printf("%c to (%u, %u)\n", (int)moved, (unsigned)packet[0], (unsigned)packet[1]);
    }
}

/* The better of both networks, with so many bytes for the first one's letters. */
static void pick(uint32_t source_row, uint32_t source_column, uint32_t row, uint32_t column, size_t room) {
    uint64_t hops[1], refusal[1];
    uint32_t network = pinduguil_pick(COLUMNS, ROWS, map, sizeof map, source_row, source_column, row, column, letters, room,
                                      others, sizeof others, hops, 1, refusal, 1);
    printf("(%u, %u) to (%u, %u), ", (unsigned)source_row, (unsigned)source_column, (unsigned)row, (unsigned)column);
    if (network == 0) {
        show_refusal((uint32_t)refusal[0]);
        return;
    }
    printf("network %u: ", (unsigned)network);
    show_route((uint32_t)hops[0], network == PINDUGUIL_FIRST ? letters : others);
}

/* The map's blocks, and how each node is marked, the northernmost row first. */
static void show_marks(void) {
    uint64_t rounds[1] = {0};
    uint32_t blocks = pinduguil_mark(COLUMNS, ROWS, map, sizeof map, marks, sizeof marks, rounds, 1);
    printf("blocks %u, rounds %llu\n", (unsigned)blocks, (unsigned long long)rounds[0]);
    for (int row = ROWS - 1; row >= 0; row--) {
        for (int column = 0; column < COLUMNS; column++) putchar(".FU"[marks[row * COLUMNS + column]]);
        putchar('\n');
    }
}

/* The map's boxes, with a list for so many faults. */
static void show_boxes(uint32_t faults) {
    static uint32_t list[4 * COLUMNS * ROWS];
    uint32_t boxes = pinduguil_box(COLUMNS, ROWS, map, sizeof map, list, 4 * (size_t)faults);
    if (boxes >= PINDUGUIL_REFUSED) {
        show_refusal(boxes - PINDUGUIL_REFUSED);
        return;
    }
    for (const uint32_t *box = list; box < list + 4 * boxes; box += 4)
        printf("box (%u, %u) to (%u, %u)\n", (unsigned)box[0], (unsigned)box[1], (unsigned)box[2], (unsigned)box[3]);
}

/* The map of a number. */
static void draw(uint32_t number, uint32_t draws) {
    uint32_t faults = pinduguil_draw(COLUMNS, ROWS, number, draws, map, sizeof map);
    printf("number %u, %u draws: ", (unsigned)number, (unsigned)draws);
    if (faults >= PINDUGUIL_REFUSED) {
        show_refusal(faults - PINDUGUIL_REFUSED);
        return;
    }
    printf("faults %u, ", (unsigned)faults);
    show_marks();
    show_boxes(faults);
}

int main(void) {
    map[3 * COLUMNS + 4] = 1;
    map[4 * COLUMNS + 5] = 1;
    show_marks();
    /* One box of two faults; the list for one of them is too short. */
    show_boxes(2);
    show_boxes(1);

    if (follow(PINDUGUIL_FIRST) != 0 || follow(PINDUGUIL_SECOND) != 0) return 1;

    /* A table of sends; the second has no room. */
    const uint32_t sends[] = {1, 5, 6, 5, 3, 0, 3, 9, 3, 9, 3, 8};
    uint32_t answers[3];
    uint64_t count[1];
    uint32_t no = pinduguil_route_batch(PINDUGUIL_FIRST, COLUMNS, ROWS, map, sizeof map, sends, 12, answers, 3, letters, 12, count, 1);
    if (no != 0) return show_refusal(no);
    printf("table of %llu letters: ", (unsigned long long)count[0]);
    const uint8_t *next = letters;
    for (int i = 0; i < 3; i++) {
        if (answers[i] >= PINDUGUIL_REFUSED) {
            printf("no %u, ", (unsigned)(answers[i] - PINDUGUIL_REFUSED));
            continue;
        }
        printf("%.*s%s", (int)answers[i], (const char *)next, i == 2 ? "\n" : ", ");
        next += answers[i];
    }

    /* Hand-ins with a forbidden turn: which rule it breaks. A column further east the second network forbids it, and the first doesn't. */
    static const char *const hand_ins[] = {"EN", "NW", "ES", "SW"};
    uint64_t index[1];
    for (uint32_t network = PINDUGUIL_FIRST; network <= PINDUGUIL_SECOND; network++) {
        for (int i = 0; i < 4; i++) {
            uint32_t column = (i % 2 == 0 ? 5u : 7u) + (network - PINDUGUIL_FIRST);
            const uint8_t *hand_in = (const uint8_t *)hand_ins[i];
            uint32_t wrong = pinduguil_judge(network, COLUMNS, ROWS, map, sizeof map, 1, column, 6, 5, hand_in, 2, index, 1);
            int rule = wrong == PINDUGUIL_BREAKS_RULE_1 ? 1 : wrong == PINDUGUIL_BREAKS_RULE_2 ? 2 : 0;
            printf("%s on network %u: %u, rule %d, index %llu\n", hand_ins[i], (unsigned)network, (unsigned)wrong, rule,
                   (unsigned long long)index[0]);
        }
    }

    /* To the row above the block, which is served; to the block's side, which is refused; on the second network from its edge. */
    uint32_t hops = pinduguil_route(PINDUGUIL_FIRST, COLUMNS, ROWS, map, sizeof map, 1, 5, 5, 4, letters, sizeof letters);
    show_route(hops, letters);
    uint32_t refused = pinduguil_route(PINDUGUIL_FIRST, COLUMNS, ROWS, map, sizeof map, 1, 1, 4, 6, letters, sizeof letters);
    show_refusal(refused - PINDUGUIL_REFUSED);
    refused = pinduguil_route(PINDUGUIL_SECOND, COLUMNS, ROWS, map, sizeof map, 1, 0, 6, 5, letters, sizeof letters);
    show_refusal(refused - PINDUGUIL_REFUSED);

    /* Either network shorter; a tie, and the same without room for the first; one at its edge; the same without room; a block's side. */
    pick(1, 5, 6, 5, sizeof letters);
    pick(1, 2, 6, 7, sizeof letters);
    pick(3, 0, 3, 9, sizeof letters);
    pick(3, 0, 3, 9, 12);
    pick(1, 0, 6, 5, sizeof letters);
    pick(1, 0, 6, 5, 9);
    pick(1, 1, 4, 6, sizeof letters);

    /* Three faults; of six draws two are of a place that was drawn; none; too many draws. */
    draw(0, 3);
    draw(2026, 6);
    draw(7, 0);
    draw(7, PINDUGUIL_MOST_DRAWS + 1);
    return 0;
}
