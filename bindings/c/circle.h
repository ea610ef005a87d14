/*
 * Circle STARKs, proved: the commands of the programs circle_tool and stark_tool, called from C.
 *
 * Link libcircle_c.a and then the kit's liblibc_c.a, or libcircle.so, which holds both.
 *
 * Each command reads a JSON text, or circle_stark_verify and circle_stark_verify_from two, which it
 * borrows for the call, in UTF-8 and without a terminator. It returns the program's status:
 *
 *   0  there is a result
 *   1  the input is refused, or the call ran out of memory
 *   2  a text can't be read as an input of the command
 *
 * and writes the line that the program writes, with its newline at the end and no zero byte after
 * it. It always writes the line's length to *needed. If that is at most line_len, it writes the
 * line to line[0] up to line[*needed - 1]; else it writes nothing to line. docs/PROGRAM.md describes
 * the inputs and the lines of circle_tool, docs/STARK.md those of stark_tool. CIRCLE_LINE_LEN bytes
 * hold each line of circle_verify, circle_verify_with and circle_verify_from, and every refusal of
 * circle_tool's commands; CIRCLE_STARK_LINE_LEN bytes hold each line of circle_stark_check,
 * circle_stark_verify and circle_stark_verify_from, and every refusal.
 *
 * A protocol has a challenger on each side, which absorbs the same and draws the same there. The
 * prover commits by circle_commit. Each side's challenger absorbs a name of the protocol, the public
 * inputs and the commitments, and then the points are drawn from it. The prover opens at these by
 * circle_prove_from. The verifier compares the points of the claims with its own, and calls
 * circle_verify_from. After both the two challengers are equal again, so that more can follow. The
 * calls without a challenger begin with one that absorbs the commitments alone, or of the STARK
 * nothing.
 *
 * A pointer beside a length of 0 may be null, as data() of an empty std::vector is: that of a text
 * or of bytes, of which there are none, and line where only *needed is to be written.
 *
 * A call keeps nothing: the same texts and the same challenger get the same line and leave the same
 * challenger, unless the call is out of memory. It may be made from any thread, and from several at
 * once, each with a line, a needed and a challenger of its own.
 *
 * What the caller must ensure. Nothing tests it; otherwise the behaviour is undefined, in the sense
 * of the C standard:
 *
 * - text, bytes, statement and proof point to as many bytes as the length beside them says, line to
 *   line_len bytes, needed to one size_t, params to one circle_params, challenger to one
 *   circle_challenger and element to three uint32_t. needed, params, challenger and element aren't
 *   null. The bytes of line and the numbers of element need no initial value.
 * - While the call runs, nobody else writes a text, the bytes or the parameters, and nobody else
 *   reads or writes the line, *needed, the challenger or the element.
 * - The line, *needed, the challenger and the element overlap neither each other nor a text, the
 *   bytes or the parameters. So a call can't write its line over its own text, and a challenger
 *   can't absorb itself in place.
 * - malloc, realloc and free come from one allocator, which aligns a block to each power of two up
 *   to 16 that divides its size, as that of a C library does.
 * - The calling thread has enough stack: 1 MiB suffices.
 * - No call is made from a signal handler, nor in the forked child of a process with threads.
 */
#ifndef CIRCLE_H
#define CIRCLE_H

#include <stddef.h>
#include <stdint.h>

#ifdef __cplusplus
extern "C" {
#endif

/* A line of this many bytes holds what circle_verify, circle_verify_with and circle_verify_from
 * write, and refusals. */
#define CIRCLE_LINE_LEN 64

/* A line of this many bytes holds what circle_stark_check, circle_stark_verify and
 * circle_stark_verify_from write, and every refusal. */
#define CIRCLE_STARK_LINE_LEN 128

/* The parameters of proofs, as docs/PROGRAM.md has them in "params". */
typedef struct circle_params {
    size_t batch_pow_bits;
    size_t commit_pow_bits;
    size_t log_blowup;
    size_t log_final_poly_len;
    size_t max_log_arity;
    size_t num_queries;
    size_t query_pow_bits;
} circle_params;

/* A challenger: what it has absorbed and drawn, as 32 bytes. All zero is one that has absorbed
 * nothing. It may be copied, compared and stored by these bytes. */
typedef struct circle_challenger {
    uint8_t state[32];
} circle_challenger;

/* Absorbs bytes, in one piece: a name, public inputs, the 32 bytes of a commitment. The pieces
 * count: two are not absorbed as their bytes in one. */
void circle_challenger_observe(circle_challenger *challenger, const uint8_t *bytes, size_t len);

/* Absorbs an element of the field, as its four bytes, the greatest first. Returns 0, or 1 where it
 * isn't below 2^31 - 1, and then the challenger is as it was. */
uint8_t circle_challenger_observe_element(circle_challenger *challenger, uint32_t element);

/* Draws an element of the extension, as a point's coordinate: three numbers below 2^31 - 1. */
void circle_challenger_sample(circle_challenger *challenger, uint32_t element[3]);

/* The values of polynomials on a domain: {"rows":..}. */
uint8_t circle_values(const uint8_t *text, size_t text_len, uint8_t *line, size_t line_len,
                      size_t *needed);

/* Claims with their proof, which circle_verify reads. If the line doesn't fit, a call with a longer
 * one proves again. Matrices of several heights in one proof are weak (docs/SECURITY.md): prove
 * each height by a call of its own. */
uint8_t circle_prove(const uint8_t *text, size_t text_len, uint8_t *line, size_t line_len,
                     size_t *needed);

/* Status 0, {"verified":true}, exactly where the text's proof is accepted, unless the call is out
 * of memory. Parameters and claims are read from the text too: see circle_verify_with and
 * docs/SECURITY.md. */
uint8_t circle_verify(const uint8_t *text, size_t text_len, uint8_t *line, size_t line_len,
                      size_t *needed);

/* The shape of claims: how they are grouped, and what the transcript is seeded with. */
uint8_t circle_shape(const uint8_t *text, size_t text_len, uint8_t *line, size_t line_len,
                     size_t *needed);

/* As circle_verify where the text's parameters are *params, each of the seven; else status 1 and
 * {"refused":"ParametersDiffer"}, which is found after faults of the JSON and before the command's
 * own refusals. */
uint8_t circle_verify_with(const uint8_t *text, size_t text_len, const circle_params *params,
                           uint8_t *line, size_t line_len, size_t *needed);

/* The commitments to the batches of an input of circle_prove, whose points count for nothing:
 * {"commitments":["..",..]}, of 64 hexadecimal digits each, in the batches' order. */
uint8_t circle_commit(const uint8_t *text, size_t text_len, uint8_t *line, size_t line_len,
                      size_t *needed);

/* As circle_prove, from the caller's challenger, which has absorbed what the caller wants: nothing
 * is absorbed before the opening. Where the status is 0 and the line fits, *challenger is left as
 * the proof leaves it, else as it was. */
uint8_t circle_prove_from(const uint8_t *text, size_t text_len, circle_challenger *challenger,
                          uint8_t *line, size_t line_len, size_t *needed);

/* As circle_verify_with, from the caller's challenger, which has absorbed what the prover's had: it
 * absorbs nothing before the proof. Status 0 leaves *challenger as the prover's, whether the line
 * fits or not; any other leaves it as it was. */
uint8_t circle_verify_from(const uint8_t *text, size_t text_len, const circle_params *params,
                           circle_challenger *challenger, uint8_t *line, size_t line_len,
                           size_t *needed);

/* Whether the rows of a table satisfy constraints, an AIR: {"satisfied":true}. Where one doesn't
 * hold, the line is {"constraint":n,"refused":"Unsatisfied","row":n}. */
uint8_t circle_stark_check(const uint8_t *text, size_t text_len, uint8_t *line, size_t line_len,
                           size_t *needed);

/* A proof that rows satisfy an AIR, with its statement, in one object: without "proof" it is a
 * statement for circle_stark_verify, and "proof" is the proof. If the line doesn't fit, a call with
 * a longer one proves again. */
uint8_t circle_stark_prove(const uint8_t *text, size_t text_len, uint8_t *line, size_t line_len,
                           size_t *needed);

/* Status 0, {"air_digest":..,"log_n":n,"verified":true}, exactly where the proof of one text is
 * accepted of the statement of the other, unless the call is out of memory. The statement is the
 * caller's own, an object of the AIR, the logarithm of the number of rows, the parameters and the
 * public values:
 *
 *   {"air":..,"log_n":n,"params":..,"public_values":[..]}
 *
 * and the proof a stranger's, the object that stands under "proof" in what circle_stark_prove
 * writes. Where a text can't be read, the statement being read first, status 2, and the line says
 * which and why: {"text":"statement","unreadable":NAME} or {"text":"proof","unreadable":NAME}. */
uint8_t circle_stark_verify(const uint8_t *statement, size_t statement_len, const uint8_t *proof,
                            size_t proof_len, uint8_t *line, size_t line_len, size_t *needed);

/* As circle_stark_prove, from the caller's challenger, which is left as circle_prove_from leaves
 * it. */
uint8_t circle_stark_prove_from(const uint8_t *text, size_t text_len,
                                circle_challenger *challenger, uint8_t *line, size_t line_len,
                                size_t *needed);

/* As circle_stark_verify, from the caller's challenger, which is left as circle_verify_from leaves
 * it. */
uint8_t circle_stark_verify_from(const uint8_t *statement, size_t statement_len,
                                 const uint8_t *proof, size_t proof_len,
                                 circle_challenger *challenger, uint8_t *line, size_t line_len,
                                 size_t *needed);

#ifdef __cplusplus
}
#endif

#endif
