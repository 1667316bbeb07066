/*
 * A verified checker for AGAL shader bytecode: the C interface.
 *
 * The functions here are those of `libagal_c.a` (x86-64 Linux, System V calling convention; `tools/build libagal_c.a` makes it). Each
 * is proved against a contract that gives its answer for all numbers and bytes; this file says the contracts in words.
 *
 * What every function has in common
 *
 * - Bytes come as a pointer and a length. The pointer must be good for that many bytes, for reading where it is `const`, else for
 *   writing too. Where the length is 0 the pointer is not followed and may be null. A null pointer with another length is an error of
 *   the caller's, as a length that is too large is; no function can find that out.
 * - A buffer that is written to must not overlap bytes that are read in the same call.
 * - A buffer that is too short is refused by number 23. A refused call changes no byte of it, and a call that isn't refused changes only
 *   as many of its first bytes as the function says.
 * - No function allocates, keeps a pointer, reads or writes a global, or calls the C library for more than memcpy and memset. Threads may
 *   call as they like on buffers of their own.
 * - A program is a header of 7 bytes and tokens of 24. Tokens are counted from 0.
 */
#ifndef AGAL_H
#define AGAL_H

#include <stddef.h>
#include <stdint.h>

#ifdef __cplusplus
extern "C" {
#endif

/* Sizes, in bytes. */
#define AGAL_TOKEN_SIZE 24      /* of a token in a program */
#define AGAL_FLAT_SIZE 29       /* of a token's flat form, below */
#define AGAL_LINE_MAX 128       /* room for any listing line */
#define AGAL_INPUT_MAX 49160    /* the longest input that agal_report lists */
#define AGAL_REPORT_MAX 262178  /* room for any text of agal_report */

/*
 * Stack that a thread needs to have left, in bytes. Measured: 2,536 for agal_check, 2,952 for agal_report, 824 for the others; and up to
 * some 3,200 more in a program's first call, where the loader looks up memcpy and the like only then.
 */
#define AGAL_CHECK_STACK 8192
#define AGAL_REPORT_STACK 8192

/* Stages. */
#define AGAL_VERTEX 0
#define AGAL_FRAGMENT 1

/*
 * What a function answers. Numbers that no rule names are 0.
 */
typedef struct agal_answer {
    uint8_t number; /* 0, or the number of the refusal: the table below */
    uint8_t part;   /* of a refusal: 0 the opcode, the token or the program, 1 the destination, 2 source 1, 3 source 2 */
    uint8_t stage;  /* of agal_check: AGAL_VERTEX or AGAL_FRAGMENT */
    size_t token;   /* of a refusal: the token at fault */
    size_t value;   /* what else is answered, as each function says */
} agal_answer;

/*
 * Numbers of refusals:
 *
 *    1  the edition is not 1, 2 or 3
 *    2  fewer than 7 bytes
 *    3  the first byte is not A0
 *    4  the version is not 1
 *    5  the type id is not A1
 *    6  the stage is neither 0, vertex, nor 1, fragment
 *    7  the bytes after the header are no whole number of tokens
 *    8  more tokens than the edition allows: 200, 1024, 2048
 *    9  no such opcode
 *   10  an opcode that edition 1 does not have
 *   11  kil or tex in a vertex program
 *   12  a field that the opcode does not use is not 0
 *   13  a bit without a meaning is set
 *   14  the destination cannot be written, or there is no such register
 *   15  the mask is empty, or has w where the opcode gives three components
 *   16  an indexed source that the rules do not allow
 *   17  a source that cannot be read, or there is no such register
 *   18  a swizzle that kil or a matrix does not allow
 *   19  wrong sampler settings
 *   20  els or eif out of place, or a seventeenth open branch
 *   21  a component of a temporary register is read that some path has not written
 *   22  a branch is not closed; the token is its opener
 *   23  the buffer lent for writing is too short
 *   24  no whole token: other than 24 bytes to decode, or fewer than 24 left to read
 *   25  a record that cannot be encoded or listed, or bytes that are no flat form
 */

/*
 * The flat form of a token: AGAL_FLAT_SIZE bytes, numbers of more than one byte with the lowest first.
 *
 *   offset  bytes
 *   0       4      opcode
 *   4       5      destination
 *   9       10     source 1
 *   19      10     source 2
 *
 * A destination:                        A source:
 *
 *   0  kind: 0 unused, 1 register         0    kind: 0 unused, 1 direct, 2 indexed, 3 sampler
 *   1  number, 2 bytes                    1    number, 2 bytes
 *   3  mask: bit 0 is x, bit 3 is w       3-9  by its kind:
 *   4  register type
 *
 *   direct and indexed source             sampler
 *
 *   3  offset O                           3  bias in eighths, a signed byte
 *   4  swizzle                            4  register type
 *   5  register type                      5  dimension
 *   6  index type I                       6  special
 *   7  index component Q                  7  wrap
 *   8  0                                  8  mipmap
 *   9  0                                  9  filter
 *
 * Bytes that a kind does not have are written as 0 and are not looked at. A flat form read back gives the record it was written from.
 */
#define AGAL_OPCODE 0
#define AGAL_DESTINATION 4
#define AGAL_SOURCE1 9
#define AGAL_SOURCE2 19

#define AGAL_KIND_UNUSED 0
#define AGAL_KIND_REGISTER 1 /* of a destination */
#define AGAL_KIND_DIRECT 1   /* of a source, as the next two */
#define AGAL_KIND_INDEXED 2
#define AGAL_KIND_SAMPLER 3

/*
 * Judges a program under edition 1 (AGAL), 2 (AGAL2) or 3 (AGAL3).
 *
 * Accepted: number 0, stage, and value is the token count. Refused: the first fault, 1 to 22, with its token and part.
 * Takes less than AGAL_CHECK_STACK bytes of stack.
 */
agal_answer agal_check(uint32_t edition, const uint8_t *program, size_t program_length);

/*
 * Decodes a token, which must have exactly 24 bytes, into its flat form.
 *
 * Writes AGAL_FLAT_SIZE bytes to flat, and value is AGAL_FLAT_SIZE. Refused by 24, 9, 12 or 13, in that order, and then by 23.
 */
agal_answer agal_decode(const uint8_t *token, size_t token_length, uint8_t *flat, size_t flat_length);

/*
 * Reads the token that a reader which has read `place` tokens comes to; 0 is the first. The header's contents are not judged.
 *
 * Writes AGAL_FLAT_SIZE bytes to flat, and value is place + 1. A refusal has the token `place`, and value is `place`: 24 where fewer than
 * 24 bytes are left, then 9, 12 or 13, then 23.
 */
agal_answer agal_read(const uint8_t *program, size_t program_length, size_t place, uint8_t *flat, size_t flat_length);

/*
 * Encodes a token from its flat form into 24 bytes.
 *
 * Writes AGAL_TOKEN_SIZE bytes to out, and value is AGAL_TOKEN_SIZE. Refused by 25 where flat has fewer than AGAL_FLAT_SIZE bytes or a kind
 * that there isn't, where the opcode is not listed or does not take operands of these kinds, or where a value is wider than its field; then
 * by 23. Bytes of flat after the flat form are not looked at.
 */
agal_answer agal_encode(const uint8_t *flat, size_t flat_length, uint8_t *out, size_t out_length);

/*
 * Writes the listing line of a token, from its flat form, for a stage (AGAL_VERTEX or AGAL_FRAGMENT) and at a depth of 0 to 16.
 *
 * The line ends in a line feed and has no 0 after it; value is its length, at most AGAL_LINE_MAX. Refused by 25 as agal_encode is, and for
 * another stage or depth, a register type or an indexed source's index type above 6, or sampler settings that have no name; then by 23.
 */
agal_answer agal_line(const uint8_t *flat, size_t flat_length, uint32_t stage, uint32_t depth, uint8_t *out, size_t out_length);

/*
 * Writes the text that agallist prints for an input, an edition digit (the character 1, 2 or 3) and a program's bytes: its listing, or one
 * line that says why there is none.
 *
 * Every input has a text; value is its length, at most AGAL_REPORT_MAX, and no 0 stands after it. Refused by 23 alone.
 * Takes less than AGAL_REPORT_STACK bytes of stack. A buffer of AGAL_REPORT_MAX bytes is written at once; for a shorter one the text is
 * measured first, which takes about as long as to write it.
 */
agal_answer agal_report(const uint8_t *input, size_t input_length, uint8_t *out, size_t out_length);

/*
 * The level-of-detail bias of a sampler, from the signed byte of its flat form: exactly bias / 8, and positive zero for 0.
 */
float agal_bias(int8_t bias);

#ifdef __cplusplus
}
#endif

#endif
