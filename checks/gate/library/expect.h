/* What the C programs of checks/gate/library.sh share: calls with the codes that are wanted of them. */
#ifndef EXPECT_H
#define EXPECT_H

#include "qbf.h"

#include <inttypes.h>
#include <stdio.h>
#include <string.h>

static int wrong;

/* A call answers a code, or else a line says which one it answered. */
#define EXPECT(code, call) expect(__LINE__, #call, code, call)

static inline void expect(int line, const char *call, uint32_t wanted, uint32_t got) {
    if (got == wanted) return;
    printf("line %d: %s answers %" PRIu32 " and not %" PRIu32 "\n", line, call, got, wanted);
    wrong++;
}

/* A condition holds. */
#define HOLDS(condition) holds(__LINE__, #condition, (condition) != 0)

static inline void holds(int line, const char *condition, int truth) {
    if (truth) return;
    printf("line %d: %s doesn't hold\n", line, condition);
    wrong++;
}

/* A clause written out. */
#define CLAUSE(q, ...) \
    qbf_clause(q, (const int64_t[]){__VA_ARGS__}, sizeof((const int64_t[]){__VA_ARGS__}) / sizeof(int64_t))

/* One variable of each kind in a scope of its own: scope 1 is exists 3, scope 2 forall 1, scope 3 exists 2. */
static inline void three_scopes(qbf *q) {
    EXPECT(QBF_OK, qbf_scope(q, true, 0));
    EXPECT(QBF_OK, qbf_var(q, 1, 1));
    EXPECT(QBF_OK, qbf_scope(q, false, 0));
    EXPECT(QBF_OK, qbf_var(q, 2, 2));
    EXPECT(QBF_OK, qbf_scope(q, false, 1));
    EXPECT(QBF_OK, qbf_var(q, 3, 1));
}

#endif
