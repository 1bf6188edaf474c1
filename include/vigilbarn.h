/* The proved calls, from C. Each takes a problem: `problem_bytes` bytes at `problem` (docs/FORMAT.md). It reads no others,
 * changes none of them, keeps no pointer, and calls nothing of C. `vb_decide` and `vb_outermost` are lent a record beside it, of which the same holds;
 * `vb_lower` is lent no problem but three runs of bytes, and `vb_resume` and `vb_resume_saving` a saved record in the place of the problem, of which the
 * same holds. These may overlap.
 *
 * A pointer must be valid for as many bytes as its length says, and a buffer that is written may overlap neither the bytes that are read nor another
 * such buffer. Nothing is taken from the heap; how much stack a call takes is measured, not proved (docs/ASSUMPTIONS.md): 1 MiB is enough for all that
 * is tested.
 *
 * An answer is one number. But for vb_subterm and vb_lower it has a kind in the bits from 48 up, the number of a refusal or an end (docs/FORMAT.md) in
 * bits 32 to 47, and a value in bits 0 to 31. No part is ever cut off: numbers are at most 22, a refusal's place at most 8,192 (of vb_decide and
 * vb_outermost 16,384, of the calls that resume 49,152), counts of result bytes at most 13,726 and of a saved record's at most 17,781, units at most
 * 1,000,000 (proved: crates/capi/proofs/Unpacked and Resuming, over the Refusals of reading, problem, completion, record, checkpoint and decide).
 */
#ifndef VIGILBARN_H
#define VIGILBARN_H

#include <stddef.h>
#include <stdint.h>

#ifdef __cplusplus
extern "C" {
#endif

/* The parts of the answers of all calls but vb_subterm and vb_lower. */
static inline unsigned vb_kind(uint64_t answer) { return (unsigned)(answer >> 48); }
static inline unsigned vb_number(uint64_t answer) { return (unsigned)((answer >> 32) & 0xffff); }
static inline uint32_t vb_value(uint64_t answer) { return (uint32_t)answer; }

/* Completion of the problem's equations: the result's fields (docs/FORMAT.md).
 * kind 0: refused; number 1 to 11 but not 7, value the place. The result is left as it was.
 * kind 1: written; value the count of result bytes, the others are left as they were.
 * A result buffer under 16,384 bytes is refused with number 1 at place 0. Where field 10 of the result holds 0, the rules in its fields 12 settle
 * the equations: rewriting by them ends, last terms are unique, and two terms have the same one exactly when the equations lead from one to the other.
 * Where it holds 20, equations wait, field 14 has the oldest of them, and neither side of any is above the other. */
uint64_t vb_complete(const uint8_t *problem, size_t problem_bytes, uint8_t *result, size_t result_bytes);

/* Which side of the problem's one equation is above the other in the path order.
 * kind 0: refused; number 2 to 12 but not 7, value the place.
 * kind 1: value 1 (left above), 2 (right above), 3 (identical) or 4 (neither). */
uint64_t vb_compare(const uint8_t *problem, size_t problem_bytes);

/* The most general common instance of the two sides of the problem's one equation, renamed, as one field of tag 15 (hexadecimal).
 * kind 0: refused; number 1 to 12 but not 7, value the place. The result is left as it was.
 * kind 1: written; value the count of result bytes, the others are left as they were.
 * kind 2: there is none. The result is left as it was.
 * kind 3: it is over 120 nodes; number 22. The result is left as it was.
 * A result buffer under 16,384 bytes is refused with number 1 at place 0. */
uint64_t vb_unify(const uint8_t *problem, size_t problem_bytes, uint8_t *result, size_t result_bytes);

/* Whether the two sides of the problem's one equation are the same by the rules of a record, the bytes of a kept result (docs/FORMAT.md). Nothing is
 * written.
 * kind 0: refused; number 2 to 12 but not 7, value the place in the problem; or number 13, 14 or 15, value the place in the record.
 * kind 1: value 1 (same) or 2 (different).
 * kind 3: number 21 (the problem's budget is spent) or 22 (a term is over 120 nodes).
 * For a result that a run begun from a problem with the same symbol field left with end 0, resumed from its own saved records or not, kind 1 has the
 * value 1 exactly if that problem's equations lead from one side to the other, and 2 exactly if they do not. For any other record the answer speaks of
 * the record's rules only. */
uint64_t vb_decide(const uint8_t *problem, size_t problem_bytes, const uint8_t *record, size_t record_bytes);

/* As vb_decide, by rewriting from the outside in: a step at the earliest node in preorder that a rule matches, by the lowest rule there. Nothing is
 * written.
 * kind 0: refused, with the number and the place of vb_decide.
 * kind 1: number 1 (same) or 2 (different), value the units paid, one a step.
 * kind 3: number 21 (the problem's budget is spent) or 22 (a term is over 120 nodes), value the units paid.
 * For a result as named at vb_decide, kind 1 has the number 1 exactly if that problem's equations lead from one side to the other, and 2 exactly if
 * they do not: where both calls answer kind 1, they say the same. The units may differ, and one may answer kind 3 where the other does not. */
uint64_t vb_outermost(const uint8_t *problem, size_t problem_bytes, const uint8_t *record, size_t record_bytes);

/* The part of the problem's bytes that is the subterm at a position of the left side of its one equation.
 * 0: refused, and only that. Else bits 32 to 63 are the place of the part's first byte, and bits 0 to 31 how many bytes it has, which is above 0. */
uint64_t vb_subterm(const uint8_t *problem, size_t problem_bytes, size_t position);

/* The lower of two terms in the path order, over the symbols of a field of tag 01 (docs/FORMAT.md): the second if the first is above it, else the first.
 * Nothing is written, and nothing may stand behind the field or a term.
 * 0: refused. 1: the first. 2: the second. */
uint64_t vb_lower(const uint8_t *symbols, size_t symbols_bytes, const uint8_t *first, size_t first_bytes, const uint8_t *second, size_t second_bytes);

/* As vb_complete; and where the budget is spent (end 21), the run as it was when its unfinished turn began is saved, at the front of a second buffer of
 * at least 49,152 bytes (docs/FORMAT.md, "A saved record").
 * kind 0: refused; number 1 (the result buffer has under 16,384 bytes or the other one under 49,152; place 0) to 11 but not 7, value the place. Both
 * buffers are left as they were.
 * kind 1: written; value the count of result bytes; number the length of the saved record, or 0, and then the second buffer is left as it was. */
uint64_t vb_complete_saving(const uint8_t *problem, size_t problem_bytes, uint8_t *result, size_t result_bytes, uint8_t *saved, size_t saved_bytes);

/* Goes on with a saved record, from its unfinished turn on, with a new budget: the result, whose units are those of this call.
 * kind 0: refused; number 1 (place 0), 2 (the record has over 49,152 bytes), 16 (it is no saved record, value the first bad field's place) or 17 (the
 * budget is above 1,000,000, place 0). The result is left as it was.
 * kind 1: written; value the count of result bytes, the others are left as they were.
 * A record that vb_complete_saving or, from such a record, vb_resume_saving wrote is never refused with 16. With end 0 the rules then settle the
 * equations of the problem that the run began with, and unless the end is 21, end, rules and log are those of that problem's run with no budget. */
uint64_t vb_resume(const uint8_t *record, size_t record_bytes, uint64_t budget, uint8_t *result, size_t result_bytes);

/* As vb_resume; and where the budget is spent again, the run is saved as by vb_complete_saving.
 * kind 0: refused; numbers and places as vb_resume, and number 1 also where the second buffer has under 49,152 bytes. Both are left as they were.
 * kind 1: written; value and number as of vb_complete_saving. */
uint64_t vb_resume_saving(const uint8_t *record, size_t record_bytes, uint64_t budget, uint8_t *result, size_t result_bytes, uint8_t *saved,
    size_t saved_bytes);

#ifdef __cplusplus
}
#endif

#endif
