/* Eight handles, each made by one thread, filled and solved by a second, changed and solved by a third, and freed by
 * the first: a handle may move to another thread, and two share nothing. */
#include "expect.h"

#include <pthread.h>

enum { HANDLES = 8, VARS = 500 };

/* A chain of implications from 1 to the last variable. */
static void *fill(void *given) {
    qbf *q = given;
    uint64_t spent;
    for (int64_t var = 1; var < VARS; var++) EXPECT(QBF_OK, CLAUSE(q, -var, var + 1));
    EXPECT(QBF_OK, qbf_assume(q, 1));
    EXPECT(QBF_TRUE, qbf_solve(q, UINT64_MAX, &spent));
    return NULL;
}

static void *change(void *given) {
    qbf *q = given;
    uint64_t spent;
    int32_t lit = 0;
    EXPECT(QBF_OK, qbf_value(q, VARS, &lit));
    HOLDS(lit == VARS);
    EXPECT(QBF_OK, qbf_push(q));
    EXPECT(QBF_OK, CLAUSE(q, -VARS));
    EXPECT(QBF_OK, qbf_assume(q, 1));
    EXPECT(QBF_FALSE, qbf_solve(q, UINT64_MAX, &spent));
    EXPECT(QBF_OK, qbf_pop(q));
    EXPECT(QBF_TRUE, qbf_solve(q, UINT64_MAX, &spent));
    return NULL;
}

static void each(qbf *handles, void *(*work)(void *)) {
    pthread_t threads[HANDLES];
    for (int i = 0; i < HANDLES; i++) HOLDS(pthread_create(&threads[i], NULL, work, &handles[i]) == 0);
    for (int i = 0; i < HANDLES; i++) HOLDS(pthread_join(threads[i], NULL) == 0);
}

int main(void) {
    static qbf handles[HANDLES];
    for (int i = 0; i < HANDLES; i++) {
        EXPECT(QBF_OK, qbf_new(&handles[i]));
        EXPECT(QBF_OK, qbf_scope(&handles[i], false, 0));
        for (uint64_t var = 1; var <= VARS; var++) EXPECT(QBF_OK, qbf_var(&handles[i], var, 1));
    }
    each(handles, fill);
    each(handles, change);
    for (int i = 0; i < HANDLES; i++) qbf_free(&handles[i]);
    return wrong != 0;
}
