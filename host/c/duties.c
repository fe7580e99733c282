/*
 * Wagontulip from C: rolling stock duties.
 *
 *     duties FILE
 *
 * prints the label and the answer's numbers, and of accepted duties the balance of each node by its name. Exit status: the answer's code, or 3 where there is
 * none.
 */
#include "given.h"

int main(int count, char **words) {
    if (count != 2) {
        fprintf(stderr, "duties FILE\n");
        return COULD_NOT_RUN;
    }
    uint64_t rooms[WAGONTULIP_NUMBERS];
    uint64_t answer[WAGONTULIP_NUMBERS];
    wagontulip_rooms(rooms);
    struct text text = read_text(words[1], rooms[WAGONTULIP_TEXT_ROOM]);
    uint32_t *nodes = lend(rooms[WAGONTULIP_NODES_ROOM]);
    int32_t *balance = lend(rooms[WAGONTULIP_BALANCE_ROOM]);
    wagontulip_duties(text.bytes, text.length, nodes, rooms[WAGONTULIP_NODES_ROOM], balance, rooms[WAGONTULIP_BALANCE_ROOM], answer);

    print_answer(answer);
    for (uint64_t node = 0; answer[0] == WAGONTULIP_ACCEPTED && node < answer[WAGONTULIP_NODES]; node++) {
        printf("%.*s %" PRId32 "\n", (int)nodes[2 * node + 1], (const char *)text.bytes + nodes[2 * node], balance[node]);
    }
    return (int)answer[0];
}
