/* Drawn sessions by DepQBF's names, which are told line by line: compiled against DepQBF and against the layer over
 * qbf.h, the same lines are to come. Nothing is assumed: under assumptions DepQBF 5.01 finds some formulas true that it
 * finds false when it is given them anew.
 * usage: qdpll_same COUNT */
#include "brute.h"
#include "qdpll.h"

#include <stdlib.h>

enum { SOLVES = 8, GROUPS = 4 };

static QDPLL *q;
static unsigned frames;
static ClauseGroupID groups[GROUPS];

/* Two to four literals, with one of the last variable, which is existential: DepQBF doesn't take clauses in frames that
 * its reduction empties. */
static void add_clause(void) {
    qdpll_add(q, draw(2) ? MOST_VARS : -MOST_VARS);
    for (unsigned count = 1 + draw(3); count; count--) {
        LitID var = (LitID)draw(MOST_VARS - 1) + 1;
        qdpll_add(q, draw(2) ? var : -var);
    }
    qdpll_add(q, 0);
}

/* A prefix of two to four scopes, neighbours of one quantifier among them. The last one is existential. */
static void add_scopes(void) {
    unsigned scopes = 2 + draw(3);
    VarID next = 1;
    for (unsigned i = 1; i <= scopes; i++) {
        qdpll_new_scope(q, i < scopes && draw(2) ? QDPLL_QTYPE_FORALL : QDPLL_QTYPE_EXISTS);
        for (unsigned count = i == scopes ? MOST_VARS : 1 + draw(3); count && next <= MOST_VARS; count--)
            qdpll_add(q, (LitID)next++);
        qdpll_add(q, 0);
    }
}

static void change_frames(void) {
    if (draw(2)) {
        printf("push %u\n", qdpll_push(q));
        frames++;
        add_clause();
    } else if (frames) {
        printf("pop %u\n", qdpll_pop(q));
        frames--;
    }
}

static void change_groups(void) {
    ClauseGroupID *group = &groups[draw(GROUPS)];
    if (!*group) {
        printf("group %u\n", *group = qdpll_new_clause_group(q));
    } else if (draw(3)) {
        qdpll_open_clause_group(q, *group);
        printf("open %u\n", qdpll_get_open_clause_group(q));
        add_clause();
        qdpll_close_clause_group(q, *group);
    } else {
        qdpll_delete_clause_group(q, *group);
        printf("there %d\n", qdpll_exists_clause_group(q, *group));
        *group = 0;
    }
}

static void tell_prefix(void) {
    printf("greatest %u, %u scopes:", qdpll_get_max_declared_var_id(q), qdpll_get_max_scope_nesting(q));
    for (Nesting n = 1; n <= qdpll_get_max_scope_nesting(q); n++) printf(" %d", (int)qdpll_get_scope_type(q, n));
    for (VarID var = 1; var <= MOST_VARS + 1; var++) {
        int known = qdpll_is_var_declared(q, var) != 0;
        printf(" %d/%u", known, known ? qdpll_get_nesting_of_var(q, var) : 0);
    }
    printf("\n");
}

static void run(uint64_t seed) {
    draw_from(seed);
    q = qdpll_create();
    qdpll_configure(q, "--dep-man=simple");
    qdpll_configure(q, "--incremental-use");
    int grouped = (int)draw(2);
    frames = 0;
    for (int i = 0; i < GROUPS; i++) groups[i] = 0;
    printf("session %lu\n", (unsigned long)seed);
    add_scopes();
    for (unsigned solves = 0; solves < SOLVES;) {
        unsigned kind = draw(10);
        if (kind < 4) {
            add_clause();
        } else if (kind < 7 && grouped) {
            change_groups();
        } else if (kind < 7) {
            change_frames();
        } else if (kind < 8) {
            tell_prefix();
        } else {
            printf("result %d\n", (int)qdpll_sat(q));
            qdpll_reset(q);
            solves++;
        }
    }
    qdpll_delete(q);
}

int main(int count, char **words) {
    uint64_t sessions = count > 1 ? strtoull(words[1], NULL, 10) : 100;
    for (uint64_t seed = 0; seed < sessions; seed++) run(seed);
    return 0;
}
