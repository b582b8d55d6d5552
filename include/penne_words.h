/*
 * The entries of penne.h with a word a node, and packing, for C.
 *
 * Link crates/penne_words_c/out/libpenne_words_c.a, which `rt lib` makes in crates/penne_words_c, for x86-64 Linux; for
 * penne_part also libpenne_c.a:
 *
 *     cc -Iinclude program.c crates/penne_words_c/out/libpenne_words_c.a
 *
 * A word has the node's kind in its low 8 bits and its load in the upper 24. Given the same nodes, one entry with columns
 * and with words gives the same reply and leaves the same nodes in all slots, whether it accepts or refuses.
 */
#ifndef PENNE_WORDS_H
#define PENNE_WORDS_H

#include "penne.h"

#ifdef __cplusplus
extern "C" {
#endif

/* The largest load of a word. */
#define PENNE_MAX_LOAD 16777215

/*
 * The five entries. All that penne.h says of its five holds of these, with
 *
 *     node_words, m       the slots for nodes, and how many there are
 *
 * in place of node_kinds and node_loads.
 */
bool penne_words_parse_expression(const uint8_t *kinds, size_t n, const uint8_t *types, size_t n2, uint32_t cursor,
                                  uint32_t *node_words, size_t m, uint32_t count, uint32_t *reply, size_t k);

bool penne_words_parse_type(const uint8_t *kinds, size_t n, const uint8_t *types, size_t n2, uint32_t cursor,
                            uint32_t *node_words, size_t m, uint32_t count, uint32_t *reply, size_t k);

/* From the name of the constant on. */
bool penne_words_parse_constant_declaration(const uint8_t *kinds, size_t n, const uint8_t *types, size_t n2,
                                            uint32_t cursor, uint32_t *node_words, size_t m, uint32_t count,
                                            uint32_t start, uint32_t flags, uint32_t *reply, size_t k);

/* From the name of the struct on. */
bool penne_words_parse_struct_declaration(const uint8_t *kinds, size_t n, const uint8_t *types, size_t n2,
                                          uint32_t cursor, uint32_t *node_words, size_t m, uint32_t count,
                                          uint32_t start, uint32_t flags, uint32_t *reply, size_t k);

/* From the name of the word on. */
bool penne_words_parse_word_declaration(const uint8_t *kinds, size_t n, const uint8_t *types, size_t n2,
                                        uint32_t cursor, uint32_t *node_words, size_t m, uint32_t count,
                                        uint32_t start, uint32_t flags, uint8_t declaring_token, uint32_t *reply,
                                        size_t k);

/*
 * The word of a node of this kind and load. It is written to the place of an accepted reply's root. A load above
 * PENNE_MAX_LOAD is refused with PENNE_REFUSAL_LOAD_TOO_LARGE, and all other numbers of that refusal are 0. The result
 * is false if the reply has too few places, and then nothing is done.
 */
bool penne_pack(uint8_t kind, uint32_t load, uint32_t *reply, size_t k);

/* What a word holds. Packed again, it is the same word. */
uint8_t penne_unpack_kind(uint32_t word);
uint32_t penne_unpack_load(uint32_t word);

#ifdef __cplusplus
}
#endif

#endif
