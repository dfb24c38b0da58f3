/* Random sessions of twelve solves by DepQBF's names, against brute force: scopes put in anywhere, variables that no
 * scope declares, frames or groups, assumptions of the first block.
 * usage: qdpll_sessions COUNT */
#include "brute.h"
#include "qdpll.h"

#include <stdlib.h>
#include <string.h>

enum { SOLVES = 12, GROUPS = 4 };

/* The formula's scope 0 has the variables that no scope declares. */
typedef struct session {
    QDPLL *q;
    formula f;
    unsigned assumed, values, frames;
    int grouped;
    ClauseGroupID groups[GROUPS + 1];
    int states[GROUPS + 1]; /* 0 not there, 1 active, 2 inactive */
} session;

static int wrong;

static void holds(int truth, const char *what) {
    if (!truth) printf("%s\n", what), wrong++;
}

/* The variables of all scopes, and those of the first block. */
static unsigned all_vars(const session *s) {
    unsigned vars = 0;
    for (unsigned i = 0; i < s->f.scopes; i++) vars |= s->f.vars[i];
    return vars;
}

static unsigned first_block(const session *s) {
    unsigned first = s->f.vars[0] ? 0 : 1, vars = 0;
    for (unsigned i = first; i < s->f.scopes && s->f.forall[i] == s->f.forall[first]; i++) vars |= s->f.vars[i];
    return vars;
}

static void put_scope(session *s) {
    if (s->f.scopes == 6) return;
    unsigned at = 1 + draw(s->f.scopes);
    int forall = (int)draw(2);
    for (unsigned i = s->f.scopes; i > at; i--) {
        s->f.forall[i] = s->f.forall[i - 1];
        s->f.vars[i] = s->f.vars[i - 1];
    }
    s->f.forall[at] = forall;
    s->f.vars[at] = 0;
    s->f.scopes++;
    QDPLLQuantifierType type = forall ? QDPLL_QTYPE_FORALL : QDPLL_QTYPE_EXISTS;
    holds(qdpll_new_scope_at_nesting(s->q, type, at) == at, "a new scope's nesting");
    for (unsigned var = 0; var < MOST_VARS; var++) {
        if (all_vars(s) & 1u << var || draw(3)) continue;
        qdpll_add(s->q, (LitID)var + 1);
        s->f.vars[at] |= 1u << var;
    }
    qdpll_add(s->q, 0);
}

/* A clause, now and then over a variable that no scope declares: that may make another block the first. */
static void add(session *s, unsigned group) {
    if (s->f.count == MOST_CLAUSES) return;
    row r = {0, 0, group, s->frames, group == 0 || s->states[group] == 1};
    for (unsigned count = 1 + draw(3); count; count--) {
        unsigned var = draw(MOST_VARS), bit = 1u << var;
        if (!(all_vars(s) & bit) && (s->assumed || draw(3))) continue;
        int positive = (int)draw(2);
        qdpll_add(s->q, positive ? (LitID)var + 1 : -(LitID)var - 1);
        *(positive ? &r.positive : &r.negative) |= bit;
    }
    qdpll_add(s->q, 0);
    s->f.vars[0] |= (r.positive | r.negative) & ~all_vars(s);
    s->f.rows[s->f.count++] = r;
}

static void move_frame(session *s) {
    if (draw(2)) {
        holds(qdpll_push(s->q) == ++s->frames, "the frame that is opened");
        return;
    }
    holds(qdpll_pop(s->q) == s->frames, "the frame that is dropped");
    while (s->frames && s->f.count && s->f.rows[s->f.count - 1].frame == s->frames) s->f.count--;
    s->frames -= s->frames > 0;
}

static void keep_rows(session *s, unsigned group, int state) {
    unsigned kept = 0;
    for (unsigned i = 0; i < s->f.count; i++) {
        row r = s->f.rows[i];
        if (r.group == group) r.counts = state == 1;
        if (r.group != group || state) s->f.rows[kept++] = r;
    }
    s->f.count = kept;
    s->states[group] = state;
}

static void move_group(session *s) {
    unsigned group = 1 + draw(GROUPS);
    if (!s->states[group]) {
        s->groups[group] = qdpll_new_clause_group(s->q);
        s->states[group] = 1;
    } else if (s->states[group] == 2) {
        qdpll_activate_clause_group(s->q, s->groups[group]);
        keep_rows(s, group, 1);
    } else if (draw(3)) {
        qdpll_open_clause_group(s->q, s->groups[group]);
        holds(qdpll_get_open_clause_group(s->q) == s->groups[group], "the open group");
        add(s, group);
        qdpll_close_clause_group(s->q, s->groups[group]);
    } else if (draw(2)) {
        qdpll_deactivate_clause_group(s->q, s->groups[group]);
        keep_rows(s, group, 2);
    } else {
        qdpll_delete_clause_group(s->q, s->groups[group]);
        holds(!qdpll_exists_clause_group(s->q, s->groups[group]), "a group that was deleted");
        keep_rows(s, group, 0);
    }
}

static void assume(session *s) {
    unsigned first = first_block(s) & ~s->assumed;
    if (!first) return;
    unsigned var = draw_var(first);
    int positive = (int)draw(2);
    qdpll_assume(s->q, positive ? (LitID)var + 1 : -(LitID)var - 1);
    s->assumed |= 1u << var;
    if (positive) s->values |= 1u << var;
}

/* Variables that no clause has leave, and scopes without variables. */
static void collect(session *s) {
    unsigned used = 0, scopes = 1;
    for (unsigned i = 0; i < s->f.count; i++) used |= s->f.rows[i].positive | s->f.rows[i].negative;
    s->f.vars[0] &= used;
    for (unsigned i = 1; i < s->f.scopes; i++) {
        if (!(s->f.vars[i] & used)) continue;
        s->f.forall[scopes] = s->f.forall[i];
        s->f.vars[scopes++] = s->f.vars[i] & used;
    }
    s->f.scopes = scopes;
    s->assumed = s->values = 0;
    qdpll_gc(s->q);
}

static void check_prefix(session *s) {
    holds(qdpll_get_max_scope_nesting(s->q) == s->f.scopes - 1, "the greatest nesting");
    for (unsigned i = 0; i < s->f.scopes; i++) {
        QDPLLQuantifierType wanted = s->f.forall[i] ? QDPLL_QTYPE_FORALL : QDPLL_QTYPE_EXISTS;
        holds(qdpll_get_scope_type(s->q, i) == (i ? wanted : QDPLL_QTYPE_UNDEF), "a scope's quantifier");
        for (unsigned var = 0; var < MOST_VARS; var++)
            if (s->f.vars[i] & 1u << var) holds(qdpll_get_nesting_of_var(s->q, var + 1) == i, "a variable's nesting");
    }
    for (unsigned var = 0; var < MOST_VARS; var++)
        holds(!qdpll_is_var_declared(s->q, var + 1) == !(all_vars(s) & 1u << var), "a variable that is declared");
}

static void check_values(session *s, int wanted) {
    unsigned first = first_block(s), values = 0;
    int winner = s->f.forall[s->f.vars[0] ? 0 : 1] != wanted;
    for (unsigned var = 0; var < MOST_VARS; var++) {
        if (!(all_vars(s) & 1u << var)) continue;
        QDPLLAssignment value = qdpll_get_value(s->q, var + 1);
        holds((value != QDPLL_ASSIGNMENT_UNDEF) == (winner && (first & 1u << var)), "a value that is told");
        if (value == QDPLL_ASSIGNMENT_TRUE) values |= 1u << var;
    }
    holds(!winner || !first || truth(&s->f, first, values) == wanted, "the values of the first block");
}

static void check_relevant(session *s, int wanted) {
    unsigned assumed = 0, values = 0;
    if (!s->assumed) return;
    LitID *lits = qdpll_get_relevant_assumptions(s->q);
    for (LitID *lit = lits; *lit; lit++) {
        assumed |= 1u << (abs(*lit) - 1);
        if (*lit > 0) values |= 1u << (*lit - 1);
    }
    free(lits);
    holds((assumed & ~s->assumed) == 0 && ((values ^ s->values) & assumed) == 0, "the assumptions that matter");
    holds(truth(&s->f, assumed, values) == wanted, "the truth under the assumptions that matter");
}

static void check_core(session *s) {
    formula all = s->f;
    ClauseGroupID *core = qdpll_get_relevant_clause_groups(s->q);
    for (unsigned i = 0; i < s->f.count; i++) {
        row *r = &s->f.rows[i];
        int kept = r->group == 0;
        for (ClauseGroupID *group = core; *group; group++) kept |= *group == s->groups[r->group];
        r->counts = r->counts && kept;
    }
    free(core);
    holds(!truth(&s->f, s->assumed, s->values), "the truth of a core");
    s->f = all;
}

static void solve(session *s) {
    int wanted = truth(&s->f, s->assumed, s->values);
    QDPLLResult result = qdpll_sat(s->q);
    holds(result == (wanted ? QDPLL_RESULT_SAT : QDPLL_RESULT_UNSAT), "a verdict");
    check_prefix(s);
    check_values(s, wanted);
    check_relevant(s, wanted);
    if (s->grouped && !wanted) check_core(s);
    qdpll_reset(s->q);
    s->assumed = s->values = 0;
}

static void run(uint64_t seed) {
    session s = {.q = qdpll_create()};
    int before = wrong;
    draw_from(seed);
    s.grouped = (int)draw(2);
    s.f.scopes = 1;
    for (unsigned count = draw(4); count; count--) put_scope(&s);
    for (unsigned solves = 0; solves < SOLVES;) {
        unsigned kind = draw(40);
        if (kind < 12) add(&s, 0);
        else if (kind < 20 && s.grouped) move_group(&s);
        else if (kind < 20) move_frame(&s);
        else if (kind < 27) assume(&s);
        else if (kind < 29 && !s.assumed) put_scope(&s);
        else if (kind == 30) collect(&s);
        else if (kind == 31 && !s.assumed) qdpll_reset_learned_constraints(s.q);
        else solve(&s), solves++;
    }
    qdpll_delete(s.q);
    if (wrong > before) printf("in session %lu\n", (unsigned long)seed);
}

int main(int count, char **words) {
    uint64_t sessions = count > 1 ? strtoull(words[1], NULL, 10) : 100;
    for (uint64_t seed = 0; seed < sessions && wrong < 10; seed++) run(seed);
    return wrong != 0;
}
