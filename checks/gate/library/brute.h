/* A small formula and its truth, by all values: what the sessions of checks/gate/library.sh are compared with. And the
 * numbers that they are drawn by. */
#ifndef BRUTE_H
#define BRUTE_H

#include <stdint.h>

enum { MOST_VARS = 8, MOST_SCOPES = 16, MOST_CLAUSES = 128 };

/* A clause: the variables that it has, bit by bit, and those that it has negated; where it stands; and whether it
 * counts. */
typedef struct row {
    unsigned positive, negative;
    unsigned group, frame;
    int counts;
} row;

/* The scopes from the outermost in, each a set of variables, and clauses. */
typedef struct formula {
    int forall[MOST_SCOPES];
    unsigned vars[MOST_SCOPES];
    unsigned scopes;
    row rows[MOST_CLAUSES];
    unsigned count;
} formula;

static inline int matrix_is_true(const formula *f, unsigned values) {
    for (unsigned i = 0; i < f->count; i++) {
        const row *r = &f->rows[i];
        if (r->counts && !((r->positive & values) | (r->negative & ~values))) return 0;
    }
    return 1;
}

/* The truth of what is left behind scope number `scope`, where `left` of it is left. An assumed variable has its value
 * alone. */
static inline int truth_from(const formula *f, unsigned scope, unsigned left, unsigned assumed, unsigned values) {
    while (!left) {
        if (scope + 1 >= f->scopes) return matrix_is_true(f, values);
        left = f->vars[++scope];
    }
    unsigned bit = left & -left, rest = left & ~bit;
    if (assumed & bit) return truth_from(f, scope, rest, assumed, values);
    int first = truth_from(f, scope, rest, assumed, values & ~bit);
    if (f->forall[scope] ? !first : first) return first;
    return truth_from(f, scope, rest, assumed, values | bit);
}

/* The truth under assumptions: a set of variables, and their values. */
static inline int truth(const formula *f, unsigned assumed, unsigned values) {
    return f->scopes ? truth_from(f, 0, f->vars[0], assumed, values & assumed) : matrix_is_true(f, 0);
}

/* Drawn numbers. */
static uint64_t drawing = 1;

static inline unsigned draw(unsigned below) {
    drawing ^= drawing << 13;
    drawing ^= drawing >> 7;
    drawing ^= drawing << 17;
    return (unsigned)((drawing >> 20) % below);
}

static inline void draw_from(uint64_t seed) {
    drawing = (seed + 1) * 0x9e3779b97f4a7c15u;
    for (int i = 0; i < 4; i++) draw(2);
}

/* One of the variables of a set that isn't empty. */
static inline unsigned draw_var(unsigned set) {
    for (;;) {
        unsigned var = draw(MOST_VARS);
        if (set & 1u << var) return var;
    }
}

#endif
