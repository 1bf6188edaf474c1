/* Asks each call about one problem: x + (0 + s(y)) and s(z) + (0 + x), instance 8 of document 01; and of the kept result of another one,
 * 0 + x = x, whether 0 + (0 + x) and 0 + x are the same, and which of these two is the lower. And stops a run of f(f(x)) = x after two units, saves
 * it, and takes it up again.
 *
 *   tools/library
 *   gcc -Iinclude examples/calls.c target/staticlib/libcapi.a -o calls
 */
#include <stdio.h>
#include "vigilbarn.h"

static const uint8_t problem[] = {
    0x01, 0x00, 0x06, 0x00, 0x00, 0x01, 0x02, 0x02, 0x01,                                                   /* 0, s, + */
    0x02, 0x00, 0x04, 0x00, 0x00, 0x00, 0x09,                                                               /* the budget, 9 */
    0x03, 0x00, 0x0c, 0x02, 0x80, 0x02, 0x00, 0x01, 0x81, 0x02, 0x01, 0x82, 0x02, 0x00, 0x80,               /* the two sides */
};

static const uint8_t theory[] = {
    0x01, 0x00, 0x06, 0x00, 0x00, 0x01, 0x02, 0x02, 0x01, 0x02, 0x00, 0x04, 0x00, 0x00, 0x00, 0x09,         /* the same symbols and budget */
    0x03, 0x00, 0x04, 0x02, 0x00, 0x80, 0x80,                                                               /* 0 + x = x */
};

static const uint8_t question[] = {
    0x01, 0x00, 0x06, 0x00, 0x00, 0x01, 0x02, 0x02, 0x01, 0x02, 0x00, 0x04, 0x00, 0x00, 0x00, 0x09,         /* the same symbols and budget */
    0x03, 0x00, 0x08, 0x02, 0x00, 0x02, 0x00, 0x80, 0x02, 0x00, 0x80,                                       /* 0 + (0 + x) and 0 + x */
};

static const uint8_t long_run[] = {
    0x01, 0x00, 0x04, 0x00, 0x00, 0x01, 0x01, 0x02, 0x00, 0x04, 0x00, 0x00, 0x00, 0x02,                     /* a constant and f; the budget, 2 */
    0x03, 0x00, 0x04, 0x01, 0x01, 0x80, 0x80,                                                               /* f(f(x)) = x */
};

static void print_bytes(const uint8_t *bytes, size_t count) {
    for (size_t i = 0; i < count; i++) printf("%02x", bytes[i]);
    printf("\n");
}

int main(void) {
    static uint8_t result[16384];

    uint64_t compared = vb_compare(problem, sizeof problem);
    printf("compare: kind %u, number %u, value %u\n", vb_kind(compared), vb_number(compared), vb_value(compared));

    uint64_t completed = vb_complete(problem, sizeof problem, result, sizeof result);
    printf("complete: kind %u, number %u, value %u\n", vb_kind(completed), vb_number(completed), vb_value(completed));
    if (vb_kind(completed) == 1) print_bytes(result, vb_value(completed));

    uint64_t unified = vb_unify(problem, sizeof problem, result, sizeof result);
    printf("unify: kind %u, number %u, value %u\n", vb_kind(unified), vb_number(unified), vb_value(unified));
    if (vb_kind(unified) == 1) print_bytes(result, vb_value(unified));

    uint64_t part = vb_subterm(problem, sizeof problem, 2);
    printf("subterm 2: place %u, bytes %u\n", (unsigned)(part >> 32), vb_value(part));
    print_bytes(problem + (part >> 32), vb_value(part));

    uint64_t refused = vb_unify(problem, sizeof problem, result, 16383);
    printf("short buffer: kind %u, number %u, value %u\n", vb_kind(refused), vb_number(refused), vb_value(refused));

    uint64_t kept = vb_complete(theory, sizeof theory, result, sizeof result);
    uint64_t decided = vb_decide(question, sizeof question, result, vb_value(kept));
    printf("decide: kind %u, number %u, value %u\n", vb_kind(decided), vb_number(decided), vb_value(decided));
    uint64_t cut = vb_decide(question, sizeof question, result, vb_value(kept) - 1);
    printf("cut record: kind %u, number %u, value %u\n", vb_kind(cut), vb_number(cut), vb_value(cut));
    uint64_t outermost = vb_outermost(question, sizeof question, result, vb_value(kept));
    printf("outermost: kind %u, number %u, value %u\n", vb_kind(outermost), vb_number(outermost), vb_value(outermost));

    const uint8_t *first = question + 19, *second = question + 24;
    uint64_t lower = vb_lower(question, 9, first, 5, second, 3);
    printf("lower: %u\n", (unsigned)lower);
    if (lower != 0) print_bytes(lower == 1 ? first : second, lower == 1 ? 5 : 3);
    printf("a byte behind the second: %u\n", (unsigned)vb_lower(question, 9, second, 3, first, 6));

    static uint8_t saved[49152];
    uint64_t stopped = vb_complete_saving(long_run, sizeof long_run, result, sizeof result, saved, sizeof saved);
    printf("complete_saving: kind %u, number %u, value %u\n", vb_kind(stopped), vb_number(stopped), vb_value(stopped));
    print_bytes(result, vb_value(stopped));
    print_bytes(saved, vb_number(stopped));
    uint64_t resumed = vb_resume(saved, vb_number(stopped), 2, result, sizeof result);
    printf("resume: kind %u, number %u, value %u\n", vb_kind(resumed), vb_number(resumed), vb_value(resumed));
    print_bytes(result, vb_value(resumed));
    uint64_t cut_short = vb_resume(saved, vb_number(stopped) - 1, 2, result, sizeof result);
    printf("cut saved record: kind %u, number %u, value %u\n", vb_kind(cut_short), vb_number(cut_short), vb_value(cut_short));
    static uint8_t next[49152];
    uint64_t again = vb_resume_saving(saved, vb_number(stopped), 1, result, sizeof result, next, sizeof next);
    printf("resume_saving: kind %u, number %u, value %u\n", vb_kind(again), vb_number(again), vb_value(again));
    print_bytes(next, vb_number(again));
    return 0;
}
