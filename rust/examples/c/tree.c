/*
 * Reads `2 * (a + 1)` and prints its tree, each node below the one whose part it is.
 *
 *     cc -Iinclude rust/examples/c/tree.c crates/penne_c/out/libpenne_c.a -o tree && ./tree
 */
#include "penne.h"

#include <stdio.h>

#define TOKENS 8
#define SLOTS 40

static const uint8_t kinds[TOKENS] = {
    PENNE_BASE_TOKEN_NAKED_DECIMAL, PENNE_BASE_TOKEN_TIMES, PENNE_BASE_TOKEN_PAREN_LEFT,
    PENNE_BASE_TOKEN_IDENTIFIER,    PENNE_BASE_TOKEN_PLUS,  PENNE_BASE_TOKEN_NAKED_DECIMAL,
    PENNE_BASE_TOKEN_PAREN_RIGHT,   PENNE_BASE_TOKEN_END_OF_SOURCE,
};
static const uint8_t types[TOKENS] = {0};
static const char *const texts[TOKENS] = {"2", "*", "(", "a", "+", "1", ")", ""};

static uint8_t node_kinds[SLOTS];
static uint32_t node_loads[SLOTS];
static uint32_t reply[PENNE_REPLY_PLACES];

/* The part of a node at this place, or the node itself if it has no part there. */
static uint32_t part_of(uint32_t node, uint8_t which)
{
    uint8_t part = penne_part(node_kinds[node], which);
    return part == PENNE_PART_LINKED ? node_loads[node] : node - part;
}

static void print_node(uint32_t node, int depth)
{
    printf("%*s%u: kind %u, load %u", 2 * depth, "", node, node_kinds[node], node_loads[node]);
    if (node_kinds[node] == PENNE_PARSE_NODE_BINARY)
        printf(" (%s)", texts[node_loads[node]]);
    printf("\n");
    for (uint8_t which = 0; which < PENNE_MAX_PARTS && penne_part(node_kinds[node], which) != 0; which++)
        print_node(part_of(node, which), depth + 1);
}

int main(void)
{
    if (!penne_parse_expression(kinds, TOKENS, types, TOKENS, 0, node_kinds, SLOTS, node_loads, SLOTS, 0, reply,
                                PENNE_REPLY_PLACES))
        return 2;
    if (reply[0] == PENNE_REFUSED) {
        printf("refused with %u at token %u\n", reply[PENNE_REFUSED_NUMBER], reply[PENNE_REFUSED_START]);
        return 1;
    }
    if (reply[PENNE_ACCEPTED_CURSOR] != TOKENS - 1)
        printf("not read from token %u on\n", reply[PENNE_ACCEPTED_CURSOR]);
    print_node(reply[PENNE_ACCEPTED_ROOT], 0);
    return 0;
}
