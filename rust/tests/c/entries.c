/* A sum, refusals, declarations, a reply with too few places, and parts of nodes. */
#include "penne.h"

#include "expect.h"

static uint8_t node_kinds[SLOTS];
static uint32_t node_loads[SLOTS];

static void a_sum(void)
{
    const uint8_t kinds[] = {PENNE_PARSE_NODE_UNTYPED_INTEGER_LITERAL, PENNE_PARSE_NODE_UNTYPED_INTEGER_LITERAL,
                             PENNE_PARSE_NODE_ITEM, PENNE_PARSE_NODE_BINARY_OP, PENNE_PARSE_NODE_BINARY};
    const uint32_t loads[] = {0, 2, 0, PENNE_BINARY_OP_ADD, 1};
    bool done = penne_parse_expression(sum, 4, no_types, 4, 0, node_kinds, SLOTS, node_loads, SLOTS, 0, reply,
                                       PENNE_REPLY_PLACES);
    expect(done && replied(PENNE_ACCEPTED, 4, 3, 5, 0, 0), "1 + 2 is accepted with root 4, cursor 3, count 5");
    expect(reply[PENNE_ACCEPTED_ROOT] == 4 && reply[PENNE_ACCEPTED_COUNT] == 5, "the places have names");
    expect(memcmp(node_kinds, kinds, sizeof kinds) == 0, "the kinds of its nodes");
    expect(memcmp(node_loads, loads, sizeof loads) == 0, "the loads of its nodes");
}

static void a_refusal(void)
{
    bool done =
        penne_parse_type(sum, 4, no_types, 4, 1, node_kinds, SLOTS, node_loads, SLOTS, 0, reply, PENNE_REPLY_PLACES);
    expect(done && replied(PENNE_REFUSED, PENNE_REFUSAL_EXPECTED_TYPE, 1, 1, 2, 0), "a plus begins no type");
    done = penne_parse_expression(sum, 4, no_types, 4, 0, node_kinds, 4, node_loads, 4, 0, reply, PENNE_REPLY_PLACES);
    expect(done && replied(PENNE_REFUSED, PENNE_REFUSAL_NO_SLOT, 3, 3, 3, 4), "four slots are too few");
}

static void declarations(void)
{
    /* S ; */
    const uint8_t opaque[] = {PENNE_BASE_TOKEN_IDENTIFIER, PENNE_BASE_TOKEN_SEMICOLON, PENNE_BASE_TOKEN_END_OF_SOURCE};
    bool done = penne_parse_struct_declaration(opaque, 3, no_types, 3, 0, node_kinds, SLOTS, node_loads, SLOTS, 0, 0,
                                               PENNE_DECLARATION_FLAG_PUBLIC, reply, PENNE_REPLY_PLACES);
    expect(done && replied(PENNE_ACCEPTED, 5, 2, 6, 0, 0), "a struct without members");
    expect(node_kinds[4] == PENNE_PARSE_NODE_DECLARATION_FLAGS, "its flags");
    expect(node_loads[4] == (PENNE_DECLARATION_FLAG_PUBLIC | PENNE_DECLARATION_FLAG_OPAQUE_STRUCT), "are two");
    done = penne_parse_word_declaration(opaque, 3, no_types, 3, 0, node_kinds, SLOTS, node_loads, SLOTS, 0, 0, 0,
                                        PENNE_BASE_TOKEN_STRUCT, reply, PENNE_REPLY_PLACES);
    expect(done && replied(PENNE_REFUSED, PENNE_REFUSAL_BAD_WORD_KIND, 0, 0, 0, 0), "a struct is no word");
    done = penne_parse_constant_declaration(opaque, 3, no_types, 3, 0, node_kinds, SLOTS, node_loads, SLOTS, 0, 0, 0,
                                            reply, PENNE_REPLY_PLACES);
    expect(done && replied(PENNE_REFUSED, PENNE_REFUSAL_MISSING_CONSTANT_TYPE, 1, 1, 1, 0), "a constant has a type");
}

static void a_short_reply(void)
{
    memset(node_kinds, 7, sizeof node_kinds);
    memset(reply, 7, sizeof reply);
    bool done = penne_parse_expression(sum, 4, no_types, 4, 0, node_kinds, SLOTS, node_loads, SLOTS, 0, reply,
                                       PENNE_REPLY_PLACES - 1);
    expect(!done, "a short reply gives false");
    expect(node_kinds[0] == 7 && reply[0] == 0x07070707, "and nothing is done");
}

static void parts(void)
{
    expect(penne_part(PENNE_PARSE_NODE_BINARY, 0) == 1, "the operator of a Binary is one back");
    expect(penne_part(PENNE_PARSE_NODE_BINARY, 2) == 3, "its right operand is three back");
    expect(penne_part(PENNE_PARSE_NODE_BINARY, 3) == 0, "and it has no fourth part");
    expect(penne_part(PENNE_PARSE_NODE_LIST_ITEM, 1) == PENNE_PART_LINKED, "the next item is linked");
    expect(penne_part(255, 0) == 0 && penne_part(0, 255) == 0, "nothing is outside of the table");
}

int main(void)
{
    a_sum();
    a_refusal();
    declarations();
    a_short_reply();
    parts();
    return failed;
}
