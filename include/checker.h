/* The rule checker for programs in other languages: link target/staticlib/libboundary.a, which `tools/product` makes.
 *
 * A text is any bytes of any length; nothing has to be tested beforehand. A reply is one number:
 *
 *     kind + 256 * number + 65536 * place + 2^32 * offset
 *
 * kind 8   a breach; number is how many variables the rule has
 * kind 9   none: no assignment of rows breaks the rule
 * kind 10  a refusal: its number, the line or ordinal that it names, and the byte of that line (README.md lists them)
 * kind 11  of checker_find_rows: the records, the statements or the rule are not well-formed
 * kind 0   of the normaliser: everything above the lowest eight bits is how many bytes were written
 *
 * The offset counts the bytes of a refused line from 0, and stops at 65,535. It says where to look for refusals 1 and 6; else it is 0.
 *
 * Pointers are as in Rust: aligned, not null (a pointer to no bytes or no records may dangle), and what is read does not overlap what
 * is written.
 */
#ifndef CHECKER_H
#define CHECKER_H

#include <stddef.h>
#include <stdint.h>

/* The first breach of the text's rule. On a breach rows[0..3] are the variables' rows, unused places 255; else no row is written. */
uint64_t checker_find(const uint8_t *text, size_t length, uint16_t rows[4]);

/* The next breach: rows[0..3] are an assignment, of which as many places are read as the rule has variables, whatever rows they name. On a
 * breach they become the first one after it that is made of representatives (rows that are the same as no lower one); else no row is
 * written. Beginning with the first breach and going on until kind 9 gives every such breach once, in order. Each call
 * reads the text and closes its context anew. */
uint64_t checker_next(const uint8_t *text, size_t length, uint16_t rows[4]);

/* A row of a table: a symbol over the earlier rows args[0..count - 1]. The places of args from the count on may hold anything. */
typedef struct {
    uint16_t symbol;
    uint8_t count;
    uint16_t args[4];
} checker_row;

/* Statements in order: kind 2 says that rows lefts[i] and rights[i] are equal, kind 3 and any other that they differ. Places from the
 * count on may hold anything. */
typedef struct {
    uint8_t kinds[510];
    uint16_t lefts[510];
    uint16_t rights[510];
    size_t count;
} checker_statements;

/* A rule. Pattern row i of kind 4 is the variable heads[i], 0 to 3; of kind 5 and any other it is the symbol heads[i] over the earlier
 * pattern rows args[4 * i .. 4 * i + counts[i] - 1]. The literal of sign 6 says that pattern rows lefts[i] and rights[i] are equal, of
 * sign 7 and any other that they differ. Places past the last pattern row, argument or literal may hold anything, and so may a
 * variable's count. */
typedef struct {
    size_t patterns;
    uint8_t kinds[64];
    uint16_t heads[64];
    uint8_t counts[64];
    uint16_t args[256];
    size_t literals;
    uint8_t signs[16];
    uint16_t lefts[16];
    uint16_t rights[16];
} checker_rule;

/* The first breach of a rule in the context that count records and some statements say; nothing has to be tested beforehand. On a breach
 * places[0..3] are the variables' rows, unused places 255; else no place is written. Kind 11 says that there are more than 255 records,
 * 510 statements, 64 pattern rows or 16 literals; or a count over 4, an argument that is no earlier row, a statement that names no row,
 * a variable over 3, an argument that is no earlier pattern row, or a literal that names no pattern row. Else the reply is that of a text
 * that says the same: 8 and 9 are its only refusals. One symbol may have several counts here: with another count it is another symbol. */
uint64_t checker_find_rows(const checker_row *rows, size_t count, const checker_statements *said, const checker_rule *rule,
                           uint16_t places[4]);

/* The normal text of the text's context, into the first bytes of the lent space. On a refusal no byte is written; 10 says that the
 * space is too short. No normal text is longer than 7,898 bytes. */
uint64_t checker_normalise(const uint8_t *text, size_t length, uint8_t *lent, size_t space);

static inline unsigned checker_kind(uint64_t reply) { return (unsigned)(reply & 0xFF); }
static inline unsigned checker_number(uint64_t reply) { return (unsigned)(reply >> 8 & 0xFF); }
static inline unsigned checker_place(uint64_t reply) { return (unsigned)(reply >> 16 & 0xFFFF); }
static inline unsigned checker_offset(uint64_t reply) { return (unsigned)(reply >> 32 & 0xFFFF); }
static inline size_t checker_written(uint64_t reply) { return (size_t)(reply >> 8); }

#endif
