/*
 * A parser of Penne expressions, types and declarations, for C.
 *
 * Link crates/penne_c/out/libpenne_c.a, which `rt lib` makes in crates/penne_c, for x86-64 Linux:
 *
 *     cc -Iinclude program.c crates/penne_c/out/libpenne_c.a
 *
 * A row of tokens is two columns: a kind for each token (enum penne_base_token) and its value type (enum
 * penne_value_type_keyword), which is read only where the kind is ValueTypeKeyword or SuffixedInteger. The last token
 * is EndOfSource. The nodes are two columns too: a kind (enum penne_parse_node) and a load, which is the number that
 * the node holds: of a token, of a node, a count or a code. A token's number is its place in the row, a node's number
 * its place in the node columns. docs/MANUAL.md has a table of what each kind holds, and the nodes of each construct.
 *
 * The parts of a node are the nodes that it is made of, in a fixed order: the operator, the left and the right operand
 * of a Binary, for one. Each stands a number of places before the node that its kind decides, or is the node whose
 * number is the load. penne_part gives them; rust/examples/c/tree.c is a program that walks and prints a tree.
 *
 * The library allocates nothing, keeps nothing between calls and needs no other library, not even that of C. It reads
 * and writes only what it is lent, and uses less than 16 KiB of stack. Calls in several threads are fine as long as
 * they do not write to the same memory.
 */
#ifndef PENNE_H
#define PENNE_H

#include <stdbool.h>
#include <stddef.h>
#include <stdint.h>

#ifdef __cplusplus
extern "C" {
#endif

/* The most tokens of a row, and the most slots of the node columns. */
#define PENNE_MAX_TOKENS 65535
#define PENNE_MAX_SLOTS 131075

/* The places of a reply, and what stands in the first of them. */
#define PENNE_REPLY_PLACES 6
#define PENNE_ACCEPTED 0
#define PENNE_REFUSED 1

/* A node has at most so many parts, and this is the code of one that the load names. */
#define PENNE_MAX_PARTS 4
#define PENNE_PART_LINKED 9

/*
 * The places of an accepted reply. The last two places are 0. What was read may be less than the row: if the cursor is
 * not the place of EndOfSource, the tokens from it on were not read.
 */
enum penne_accepted_reply {
    PENNE_ACCEPTED_ROOT = 1,
    PENNE_ACCEPTED_CURSOR = 2,
    PENNE_ACCEPTED_COUNT = 3
};

/* The places of a refused reply. The number is one of enum penne_refusal; the end is the start, except in 24. */
enum penne_refused_reply {
    PENNE_REFUSED_NUMBER = 1,
    PENNE_REFUSED_START = 2,
    PENNE_REFUSED_END = 3,
    PENNE_REFUSED_CURSOR = 4,
    PENNE_REFUSED_COUNT = 5
};

/* The kinds of tokens. */
enum penne_base_token {
    PENNE_BASE_TOKEN_END_OF_SOURCE = 0,
    PENNE_BASE_TOKEN_PAREN_LEFT = 1,
    PENNE_BASE_TOKEN_PAREN_RIGHT = 2,
    PENNE_BASE_TOKEN_BRACE_LEFT = 3,
    PENNE_BASE_TOKEN_BRACE_RIGHT = 4,
    PENNE_BASE_TOKEN_BRACKET_LEFT = 5,
    PENNE_BASE_TOKEN_BRACKET_RIGHT = 6,
    PENNE_BASE_TOKEN_ANGLE_LEFT = 7,
    PENNE_BASE_TOKEN_ANGLE_RIGHT = 8,
    PENNE_BASE_TOKEN_PIPE = 9,
    PENNE_BASE_TOKEN_AMPERSAND = 10,
    PENNE_BASE_TOKEN_CARET = 11,
    PENNE_BASE_TOKEN_EXCLAMATION = 12,
    PENNE_BASE_TOKEN_PLACEHOLDER = 13,
    PENNE_BASE_TOKEN_PLUS = 14,
    PENNE_BASE_TOKEN_MINUS = 15,
    PENNE_BASE_TOKEN_TIMES = 16,
    PENNE_BASE_TOKEN_DIVIDE = 17,
    PENNE_BASE_TOKEN_MODULO = 18,
    PENNE_BASE_TOKEN_COLON = 19,
    PENNE_BASE_TOKEN_SEMICOLON = 20,
    PENNE_BASE_TOKEN_DOT = 21,
    PENNE_BASE_TOKEN_COMMA = 22,
    PENNE_BASE_TOKEN_ASSIGNMENT = 23,
    PENNE_BASE_TOKEN_EQUALS = 24,
    PENNE_BASE_TOKEN_DOES_NOT_EQUAL = 25,
    PENNE_BASE_TOKEN_IS_GE = 26,
    PENNE_BASE_TOKEN_IS_LE = 27,
    PENNE_BASE_TOKEN_SHIFT_LEFT = 28,
    PENNE_BASE_TOKEN_SHIFT_RIGHT = 29,
    PENNE_BASE_TOKEN_ARROW = 30,
    PENNE_BASE_TOKEN_PIPE_FOR_TYPE = 31,
    PENNE_BASE_TOKEN_DOTS = 32,
    PENNE_BASE_TOKEN_FN = 33,
    PENNE_BASE_TOKEN_VAR = 34,
    PENNE_BASE_TOKEN_CONST = 35,
    PENNE_BASE_TOKEN_IF = 36,
    PENNE_BASE_TOKEN_GOTO = 37,
    PENNE_BASE_TOKEN_LOOP = 38,
    PENNE_BASE_TOKEN_RETURN = 39,
    PENNE_BASE_TOKEN_ELSE = 40,
    PENNE_BASE_TOKEN_CAST = 41,
    PENNE_BASE_TOKEN_AS = 42,
    PENNE_BASE_TOKEN_IMPORT = 43,
    PENNE_BASE_TOKEN_PUB = 44,
    PENNE_BASE_TOKEN_EXTERN = 45,
    PENNE_BASE_TOKEN_STRUCT = 46,
    PENNE_BASE_TOKEN_WORD8 = 47,
    PENNE_BASE_TOKEN_WORD16 = 48,
    PENNE_BASE_TOKEN_WORD32 = 49,
    PENNE_BASE_TOKEN_WORD64 = 50,
    PENNE_BASE_TOKEN_WORD128 = 51,
    PENNE_BASE_TOKEN_VALUE_TYPE_KEYWORD = 52,
    PENNE_BASE_TOKEN_IDENTIFIER = 53,
    PENNE_BASE_TOKEN_BUILTIN = 54,
    PENNE_BASE_TOKEN_NAKED_DECIMAL = 55,
    PENNE_BASE_TOKEN_BIT_INTEGER = 56,
    PENNE_BASE_TOKEN_SUFFIXED_INTEGER = 57,
    PENNE_BASE_TOKEN_CHAR_LITERAL = 58,
    PENNE_BASE_TOKEN_BOOL_LITERAL = 59,
    PENNE_BASE_TOKEN_STRING_LITERAL = 60,
    PENNE_BASE_TOKEN_ERROR = 61
};

/* The value types of tokens, and the loads of SimpleValueType nodes. */
enum penne_value_type_keyword {
    PENNE_VALUE_TYPE_KEYWORD_NO_KEYWORD = 0,
    PENNE_VALUE_TYPE_KEYWORD_VOID = 1,
    PENNE_VALUE_TYPE_KEYWORD_INT8 = 2,
    PENNE_VALUE_TYPE_KEYWORD_INT16 = 3,
    PENNE_VALUE_TYPE_KEYWORD_INT32 = 4,
    PENNE_VALUE_TYPE_KEYWORD_INT64 = 5,
    PENNE_VALUE_TYPE_KEYWORD_INT128 = 6,
    PENNE_VALUE_TYPE_KEYWORD_UINT8 = 7,
    PENNE_VALUE_TYPE_KEYWORD_UINT16 = 8,
    PENNE_VALUE_TYPE_KEYWORD_UINT32 = 9,
    PENNE_VALUE_TYPE_KEYWORD_UINT64 = 10,
    PENNE_VALUE_TYPE_KEYWORD_UINT128 = 11,
    PENNE_VALUE_TYPE_KEYWORD_USIZE = 12,
    PENNE_VALUE_TYPE_KEYWORD_CHAR8 = 13,
    PENNE_VALUE_TYPE_KEYWORD_BOOL = 14
};

/* The kinds of nodes. */
enum penne_parse_node {
    PENNE_PARSE_NODE_NO_MORE_ITEMS = 0,
    PENNE_PARSE_NODE_DECLARATION_FLAGS = 1,
    PENNE_PARSE_NODE_FUNCTION_DECLARATION = 2,
    PENNE_PARSE_NODE_CONSTANT_DECLARATION = 3,
    PENNE_PARSE_NODE_STRUCTURE_DECLARATION = 4,
    PENNE_PARSE_NODE_IMPORT_DECLARATION = 5,
    PENNE_PARSE_NODE_FUNCTION_BODY = 6,
    PENNE_PARSE_NODE_STRUCTURAL_TYPE = 7,
    PENNE_PARSE_NODE_IDENTIFIER = 8,
    PENNE_PARSE_NODE_IDENTIFIER_AND_TYPE = 9,
    PENNE_PARSE_NODE_IDENTIFIER_AND_EXPRESSION = 10,
    PENNE_PARSE_NODE_VARIABLE_DECLARATION = 11,
    PENNE_PARSE_NODE_ASSIGNMENT = 12,
    PENNE_PARSE_NODE_LOOP = 13,
    PENNE_PARSE_NODE_GOTO = 14,
    PENNE_PARSE_NODE_LABEL = 15,
    PENNE_PARSE_NODE_METHOD_CALL = 16,
    PENNE_PARSE_NODE_FUNCTION_CALL = 17,
    PENNE_PARSE_NODE_PARENTHESIZED = 18,
    PENNE_PARSE_NODE_COMPARISON = 19,
    PENNE_PARSE_NODE_COMPARISON_OP = 20,
    PENNE_PARSE_NODE_BINARY = 21,
    PENNE_PARSE_NODE_BINARY_OP = 22,
    PENNE_PARSE_NODE_UNARY = 23,
    PENNE_PARSE_NODE_UNARY_OP = 24,
    PENNE_PARSE_NODE_BOOLEAN_LITERAL = 25,
    PENNE_PARSE_NODE_CHAR_LITERAL = 26,
    PENNE_PARSE_NODE_UNTYPED_INTEGER_LITERAL = 27,
    PENNE_PARSE_NODE_TYPED_INTEGER_LITERAL = 28,
    PENNE_PARSE_NODE_SIMPLE_STRING_LITERAL = 29,
    PENNE_PARSE_NODE_COMPOSITE_STRING_LITERAL = 30,
    PENNE_PARSE_NODE_ARRAY_LITERAL = 31,
    PENNE_PARSE_NODE_STRUCTURAL = 32,
    PENNE_PARSE_NODE_DEREF = 33,
    PENNE_PARSE_NODE_DEREF_ADDRESS_DEPTH = 34,
    PENNE_PARSE_NODE_DEREF_STEP_ELEMENT = 35,
    PENNE_PARSE_NODE_DEREF_STEP_MEMBER = 36,
    PENNE_PARSE_NODE_BIT_CAST = 37,
    PENNE_PARSE_NODE_TYPE_CAST = 38,
    PENNE_PARSE_NODE_LENGTH_OF = 39,
    PENNE_PARSE_NODE_SIZE_OF = 40,
    PENNE_PARSE_NODE_SIMPLE_VALUE_TYPE = 41,
    PENNE_PARSE_NODE_COMPOSITE_VALUE_TYPE = 42,
    PENNE_PARSE_NODE_ARRAY_VT = 43,
    PENNE_PARSE_NODE_ARRAY_WITH_NAMED_LENGTH_VT = 44,
    PENNE_PARSE_NODE_SLICE_VT = 45,
    PENNE_PARSE_NODE_ENDLESS_ARRAY_VT = 46,
    PENNE_PARSE_NODE_ARRAYLIKE_VT = 47,
    PENNE_PARSE_NODE_UNRESOLVED_STRUCT_OR_WORD_VT = 48,
    PENNE_PARSE_NODE_POINTER_VT = 49,
    PENNE_PARSE_NODE_VIEW_VT = 50,
    PENNE_PARSE_NODE_END_OF_SPAN = 51,
    PENNE_PARSE_NODE_UNPATCHED_LIST_ITEM = 52,
    PENNE_PARSE_NODE_THEN = 53,
    PENNE_PARSE_NODE_THEN_ELSE = 54,
    PENNE_PARSE_NODE_IF = 55,
    PENNE_PARSE_NODE_BLOCK = 56,
    PENNE_PARSE_NODE_ITEM = 57,
    PENNE_PARSE_NODE_LIST = 58,
    PENNE_PARSE_NODE_LIST_ITEM = 59,
    PENNE_PARSE_NODE_FUNCTION_IMPL = 60,
    PENNE_PARSE_NODE_START_PRIVATE_ZONE = 61,
    PENNE_PARSE_NODE_END_PRIVATE_ZONE = 62,
    PENNE_PARSE_NODE_ENDLESS_PRIVATE_ZONE = 63
};

/* The loads of BinaryOp nodes. */
enum penne_binary_op {
    PENNE_BINARY_OP_ADD = 0,
    PENNE_BINARY_OP_SUBTRACT = 1,
    PENNE_BINARY_OP_MULTIPLY = 2,
    PENNE_BINARY_OP_DIVIDE = 3,
    PENNE_BINARY_OP_MODULO = 4,
    PENNE_BINARY_OP_BITWISE_AND = 5,
    PENNE_BINARY_OP_BITWISE_OR = 6,
    PENNE_BINARY_OP_BITWISE_XOR = 7,
    PENNE_BINARY_OP_SHIFT_LEFT = 8,
    PENNE_BINARY_OP_SHIFT_RIGHT = 9,
    PENNE_BINARY_OP_ADVANCE_POINTER = 10
};

/* The loads of UnaryOp nodes. */
enum penne_unary_op {
    PENNE_UNARY_OP_NEGATIVE = 0,
    PENNE_UNARY_OP_BITWISE_COMPLEMENT = 1
};

/* The loads of ComparisonOp nodes. */
enum penne_comparison_op {
    PENNE_COMPARISON_OP_EQUALS = 0,
    PENNE_COMPARISON_OP_DOES_NOT_EQUAL = 1,
    PENNE_COMPARISON_OP_IS_GREATER = 2,
    PENNE_COMPARISON_OP_IS_GE = 3,
    PENNE_COMPARISON_OP_IS_LESS = 4,
    PENNE_COMPARISON_OP_IS_LE = 5
};

/* Flags of a declaration. The load of a DeclarationFlags node is their sum. */
enum penne_declaration_flag {
    PENNE_DECLARATION_FLAG_PUBLIC = 1,
    PENNE_DECLARATION_FLAG_EXTERNAL = 2,
    PENNE_DECLARATION_FLAG_MAIN = 4,
    PENNE_DECLARATION_FLAG_FORWARD = 8,
    PENNE_DECLARATION_FLAG_OPAQUE_STRUCT = 16
};

/* The numbers of refusals. */
enum penne_refusal {
    PENNE_REFUSAL_BAD_ROW = 1,
    PENNE_REFUSAL_BAD_TOKEN = 2,
    PENNE_REFUSAL_NO_END_OF_SOURCE = 3,
    PENNE_REFUSAL_EXPECTED_ASSIGNMENT = 10,
    PENNE_REFUSAL_EXPECTED_BRACE_LEFT = 11,
    PENNE_REFUSAL_EXPECTED_BRACE_RIGHT = 12,
    PENNE_REFUSAL_EXPECTED_BRACKET_RIGHT = 13,
    PENNE_REFUSAL_EXPECTED_PAREN_LEFT = 14,
    PENNE_REFUSAL_EXPECTED_PAREN_RIGHT = 15,
    PENNE_REFUSAL_EXPECTED_PIPE = 16,
    PENNE_REFUSAL_EXPECTED_SEMICOLON = 17,
    PENNE_REFUSAL_EXPECTED_IDENTIFIER = 18,
    PENNE_REFUSAL_EXPECTED_ARRAY_SIZE = 19,
    PENNE_REFUSAL_EXPECTED_TYPE = 20,
    PENNE_REFUSAL_EXPECTED_PRIMARY = 21,
    PENNE_REFUSAL_MISSING_CONSTANT_TYPE = 22,
    PENNE_REFUSAL_MISSING_MEMBER_TYPE = 23,
    PENNE_REFUSAL_MAXIMUM_PARSE_DEPTH_EXCEEDED = 24,
    PENNE_REFUSAL_EXPECTED_COMMA = 25,
    PENNE_REFUSAL_BAD_CURSOR = 30,
    PENNE_REFUSAL_BAD_COLUMNS = 31,
    PENNE_REFUSAL_BAD_COUNT = 32,
    PENNE_REFUSAL_NO_SLOT = 33,
    PENNE_REFUSAL_NESTING_EXCEEDED = 34,
    PENNE_REFUSAL_BAD_FLAGS = 35,
    PENNE_REFUSAL_BAD_WORD_KIND = 36,
    /* of packing: penne_words.h */
    PENNE_REFUSAL_LOAD_TOO_LARGE = 56
};
/*
 * The five entries. All are given
 *
 *     kinds, n            the kinds of the tokens, and how many there are
 *     types, n2           their value types, and how many there are: as many, or the row is refused
 *     cursor              the token to start from
 *     node_kinds, m       the slots for the kinds of nodes, and how many there are
 *     node_loads, m2      the slots for their loads, and how many there are: as many, or the columns are refused
 *     count               how many nodes there are; new ones are appended after them
 *     reply, k            where the reply goes, PENNE_REPLY_PLACES numbers, and how many places there are
 *
 * and the declarations also
 *
 *     start               the token with which the declaration begins
 *     flags               the sum of its flags
 *     declaring_token     of a word: its kind, word8 to word128
 *
 * The result is false if the reply has too few places, and then nothing is done. Otherwise the reply is written.
 *
 * Any numbers are allowed in all columns and arguments: what is wrong is refused. But each pointer must be valid for
 * its length and aligned, and must not be null even where the length is 0; and node_kinds, node_loads and reply must
 * overlap neither each other nor the rest.
 *
 * A refusal with a number from 1 to 3, or 30 and above other than 33 and 34, leaves the node columns as they were. Any
 * other leaves the nodes that were appended until then. Nodes below the given count and slots from the replied count
 * on never change.
 */
bool penne_parse_expression(const uint8_t *kinds, size_t n, const uint8_t *types, size_t n2, uint32_t cursor,
                            uint8_t *node_kinds, size_t m, uint32_t *node_loads, size_t m2, uint32_t count,
                            uint32_t *reply, size_t k);

bool penne_parse_type(const uint8_t *kinds, size_t n, const uint8_t *types, size_t n2, uint32_t cursor,
                      uint8_t *node_kinds, size_t m, uint32_t *node_loads, size_t m2, uint32_t count, uint32_t *reply,
                      size_t k);

/* From the name of the constant on. */
bool penne_parse_constant_declaration(const uint8_t *kinds, size_t n, const uint8_t *types, size_t n2,
                                      uint32_t cursor, uint8_t *node_kinds, size_t m, uint32_t *node_loads, size_t m2,
                                      uint32_t count, uint32_t start, uint32_t flags, uint32_t *reply, size_t k);

/* From the name of the struct on. Its last member may drop its comma. */
bool penne_parse_struct_declaration(const uint8_t *kinds, size_t n, const uint8_t *types, size_t n2, uint32_t cursor,
                                    uint8_t *node_kinds, size_t m, uint32_t *node_loads, size_t m2, uint32_t count,
                                    uint32_t start, uint32_t flags, uint32_t *reply, size_t k);

/* From the name of the word on. Its last member may drop its comma. */
bool penne_parse_word_declaration(const uint8_t *kinds, size_t n, const uint8_t *types, size_t n2, uint32_t cursor,
                                  uint8_t *node_kinds, size_t m, uint32_t *node_loads, size_t m2, uint32_t count,
                                  uint32_t start, uint32_t flags, uint8_t declaring_token, uint32_t *reply, size_t k);

/*
 * The part of a node of this kind at this place, counted from 0: k if it stands k places before the node,
 * PENNE_PART_LINKED if its number is the load, and 0 where there is no such part. The parts of a kind come without a gap.
 */
uint8_t penne_part(uint8_t kind, uint8_t which);

#ifdef __cplusplus
}
#endif

#endif
