/* A sum in words, refusals, a reply with too few places, and packing. */
#include "penne_words.h"

#include "expect.h"

static uint32_t node_words[SLOTS];

static void a_sum(void)
{
    const uint32_t words[] = {27, 27 + 256 * 2, 57, 22, 21 + 256};
    bool done =
        penne_words_parse_expression(sum, 4, no_types, 4, 0, node_words, SLOTS, 0, reply, PENNE_REPLY_PLACES);
    expect(done && replied(PENNE_ACCEPTED, 4, 3, 5, 0, 0), "1 + 2 is accepted with root 4, cursor 3, count 5");
    expect(memcmp(node_words, words, sizeof words) == 0, "its words");
    expect(penne_unpack_kind(node_words[4]) == PENNE_PARSE_NODE_BINARY && penne_unpack_load(node_words[4]) == 1,
           "the kind and the load of the last");
}

static void refusals(void)
{
    bool done = penne_words_parse_type(sum, 4, no_types, 4, 1, node_words, SLOTS, 0, reply, PENNE_REPLY_PLACES);
    expect(done && replied(PENNE_REFUSED, PENNE_REFUSAL_EXPECTED_TYPE, 1, 1, 2, 0), "a plus begins no type");
    done = penne_words_parse_expression(sum, 4, no_types, 4, 0, node_words, 4, 0, reply, PENNE_REPLY_PLACES);
    expect(done && replied(PENNE_REFUSED, PENNE_REFUSAL_NO_SLOT, 3, 3, 3, 4), "four slots are too few");
    done = penne_words_parse_constant_declaration(sum, 4, no_types, 4, 0, node_words, SLOTS, 0, 4, 0, reply,
                                                  PENNE_REPLY_PLACES);
    expect(done && replied(PENNE_REFUSED, PENNE_REFUSAL_BAD_CURSOR, 0, 0, 0, 0), "the start is no token");
    done = penne_words_parse_word_declaration(sum, 4, no_types, 4, 0, node_words, SLOTS, 0, 0, 0,
                                              PENNE_BASE_TOKEN_STRUCT, reply, PENNE_REPLY_PLACES);
    expect(done && replied(PENNE_REFUSED, PENNE_REFUSAL_BAD_WORD_KIND, 0, 0, 0, 0), "a struct is no word");
}

static void a_struct(void)
{
    /* S ; */
    const uint8_t opaque[] = {PENNE_BASE_TOKEN_IDENTIFIER, PENNE_BASE_TOKEN_SEMICOLON, PENNE_BASE_TOKEN_END_OF_SOURCE};
    bool done = penne_words_parse_struct_declaration(opaque, 3, no_types, 3, 0, node_words, SLOTS, 0, 0,
                                                     PENNE_DECLARATION_FLAG_PUBLIC, reply, PENNE_REPLY_PLACES);
    expect(done && replied(PENNE_ACCEPTED, 5, 2, 6, 0, 0), "a struct without members is accepted");
    expect(penne_unpack_load(node_words[4]) == (PENNE_DECLARATION_FLAG_PUBLIC | PENNE_DECLARATION_FLAG_OPAQUE_STRUCT),
           "it has one flag more");
}

static void packing(void)
{
    bool done = penne_pack(255, PENNE_MAX_LOAD, reply, PENNE_REPLY_PLACES);
    expect(done && replied(PENNE_ACCEPTED, UINT32_MAX, 0, 0, 0, 0), "the largest kind and load");
    expect(penne_unpack_kind(UINT32_MAX) == 255 && penne_unpack_load(UINT32_MAX) == PENNE_MAX_LOAD, "and back");
    done = penne_pack(0, PENNE_MAX_LOAD + 1, reply, PENNE_REPLY_PLACES);
    expect(done && replied(PENNE_REFUSED, PENNE_REFUSAL_LOAD_TOO_LARGE, 0, 0, 0, 0), "a load that fits no word");
    done = penne_pack(0, 0, reply, PENNE_REPLY_PLACES - 1);
    expect(!done && reply[1] == PENNE_REFUSAL_LOAD_TOO_LARGE, "too few places for a reply");
}

int main(void)
{
    a_sum();
    refusals();
    a_struct();
    packing();
    return failed;
}
