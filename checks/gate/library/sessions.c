/* Random sessions of twelve solves, in frames or in groups, with assumptions, against brute force.
 * usage: sessions COUNT */
#include "brute.h"
#include "expect.h"

#include <stdlib.h>

enum { SOLVES = 12, GROUPS = 4 };

typedef struct session {
    qbf q;
    formula f;
    unsigned vars, frames, assumed, values;
    int grouped;
} session;

static int64_t number(unsigned var, int positive) { return positive ? (int64_t)var + 1 : -(int64_t)var - 1; }

/* One to three scopes, and three to eight variables in them. */
static void begin(session *s) {
    EXPECT(QBF_OK, qbf_new_version(&s->q, 1 + draw(3)));
    EXPECT(QBF_OK, qbf_set_restarts(&s->q, draw(3)));
    s->f.scopes = 1 + draw(3);
    s->grouped = draw(2);
    for (unsigned i = 0, forall = draw(2); i < s->f.scopes; i++) {
        s->f.forall[i] = (forall + i) % 2 == 1;
        EXPECT(QBF_OK, qbf_scope(&s->q, s->f.forall[i], 0));
    }
    for (unsigned count = 3 + draw(6), var = 0; var < count; var++) {
        unsigned scope = draw(s->f.scopes);
        s->vars |= 1u << var;
        s->f.vars[scope] |= 1u << var;
        EXPECT(QBF_OK, qbf_var(&s->q, var + 1, scope + 1));
    }
}

/* Adds a clause of one to three literals, to a group where that isn't 0. */
static void add(session *s, unsigned group) {
    if (s->f.count == MOST_CLAUSES) return;
    int64_t lits[3];
    row r = {0, 0, group, s->frames, 1};
    size_t count = 1 + draw(4) - (draw(4) == 0);
    if (count > 3) count = 3;
    for (size_t i = 0; i < count; i++) {
        unsigned var = draw_var(s->vars);
        int positive = (int)draw(2);
        lits[i] = number(var, positive);
        *(positive ? &r.positive : &r.negative) |= 1u << var;
    }
    EXPECT(QBF_OK, qbf_clause(&s->q, lits, count));
    s->f.rows[s->f.count++] = r;
}

static void move_frame(session *s) {
    if (draw(2)) {
        EXPECT(QBF_OK, qbf_push(&s->q));
        s->frames++;
        return;
    }
    EXPECT(s->frames ? QBF_OK : QBF_NO_FRAME, qbf_pop(&s->q));
    if (!s->frames) return;
    while (s->f.count && s->f.rows[s->f.count - 1].frame == s->frames) s->f.count--;
    s->frames--;
}

/* Fills a group, or makes it active or not. What is new is active. */
static void move_group(session *s, int *states) {
    unsigned group = 1 + draw(GROUPS);
    if (draw(2)) {
        EXPECT(QBF_OK, qbf_open_group(&s->q, group));
        if (!states[group]) states[group] = 1;
        unsigned first = s->f.count;
        add(s, group);
        for (unsigned i = first; i < s->f.count; i++) s->f.rows[i].counts = states[group] == 1;
        EXPECT(QBF_OK, qbf_close_group(&s->q));
        return;
    }
    int active = (int)draw(2);
    uint32_t code = active ? qbf_activate(&s->q, group) : qbf_deactivate(&s->q, group);
    EXPECT(states[group] ? QBF_OK : QBF_NO_GROUP, code);
    if (!states[group]) return;
    states[group] = active ? 1 : 2;
    for (unsigned i = 0; i < s->f.count; i++)
        if (s->f.rows[i].group == group) s->f.rows[i].counts = active;
}

static void assume(session *s) {
    unsigned var = draw_var(s->vars), bit = 1u << var;
    int positive = (int)draw(2), outer = (s->f.vars[0] & bit) != 0;
    int clash = (s->assumed & bit) && ((s->values & bit) != 0) != positive;
    EXPECT(!outer ? QBF_ASSUME_SCOPE : clash ? QBF_ASSUME_CLASH : QBF_OK, qbf_assume(&s->q, number(var, positive)));
    if (!outer || clash) return;
    s->assumed |= bit;
    s->values = positive ? s->values | bit : s->values & ~bit;
}

/* The assumptions that matter are some of those that stood, and suffice. */
static void check_relevant(session *s, int wanted) {
    int32_t lits[MOST_VARS];
    size_t count = 0;
    unsigned assumed = 0, values = 0;
    EXPECT(QBF_OK, qbf_relevant(&s->q, lits, MOST_VARS, &count));
    for (size_t i = 0; i < count; i++) {
        unsigned bit = 1u << (abs(lits[i]) - 1);
        assumed |= bit;
        if (lits[i] > 0) values |= bit;
    }
    HOLDS((assumed & ~s->assumed) == 0 && ((values ^ s->values) & assumed) == 0);
    HOLDS(truth(&s->f, assumed, values) == wanted);
}

/* The values of the first scope are its side's way to win, whatever the rest does. */
static void check_values(session *s, int wanted) {
    unsigned values = 0;
    for (unsigned var = 0; var < MOST_VARS; var++) {
        if (!(s->f.vars[0] & 1u << var)) continue;
        int32_t lit = 0;
        EXPECT(s->f.forall[0] == wanted ? QBF_NOT_WINNER : QBF_OK, qbf_value(&s->q, var + 1, &lit));
        if (lit > 0) values |= 1u << var;
        HOLDS(s->f.forall[0] == wanted || abs(lit) == (int)var + 1);
    }
    if (s->f.forall[0] == wanted) return;
    HOLDS(((values ^ s->values) & s->assumed) == 0);
    HOLDS(truth(&s->f, s->f.vars[0], values) == wanted);
}

/* A core is false, and true without any of its groups. */
static void check_core(session *s) {
    uint32_t core[GROUPS];
    size_t count = 0;
    formula all = s->f;
    EXPECT(QBF_OK, qbf_group_core(&s->q, UINT64_MAX, core, GROUPS, &count));
    for (size_t left_out = 0; left_out <= count; left_out++) {
        for (unsigned i = 0; i < s->f.count; i++) {
            row *r = &s->f.rows[i];
            int kept = r->group == 0;
            for (size_t k = 0; k < count; k++) kept |= core[k] == r->group && k != left_out;
            r->counts = all.rows[i].counts && kept;
        }
        HOLDS(truth(&s->f, s->assumed, s->values) == (left_out < count));
    }
    s->f = all;
}

static void solve(session *s) {
    uint64_t spent = 0, budget = draw(4) ? UINT64_MAX : draw(8);
    int wanted = truth(&s->f, s->assumed, s->values);
    uint32_t code = qbf_solve(&s->q, budget, &spent);
    HOLDS(spent <= budget);
    if (code == 0) {
        EXPECT(QBF_NO_VERDICT, qbf_verdict(&s->q));
        code = qbf_solve(&s->q, UINT64_MAX, &spent);
    }
    EXPECT(wanted ? QBF_TRUE : QBF_FALSE, code);
    EXPECT(code, qbf_verdict(&s->q));
    check_relevant(s, wanted);
    check_values(s, wanted);
    if (s->grouped && !wanted) check_core(s);
    s->assumed = s->values = 0;
}

static void run(uint64_t seed) {
    session s = {.q = QBF_NONE};
    int states[GROUPS + 1] = {0}, before = wrong;
    draw_from(seed);
    begin(&s);
    for (unsigned solves = 0; solves < SOLVES;) {
        unsigned kind = draw(20);
        if (kind < 7 && !s.grouped) add(&s, 0);
        else if (kind < 2) add(&s, 0);
        else if (kind < 11 && s.grouped) move_group(&s, states);
        else if (kind < 11) move_frame(&s);
        else if (kind < 15) assume(&s);
        else if (kind < 16) EXPECT(QBF_OK, qbf_forget_assumptions(&s.q)), s.assumed = s.values = 0;
        else solve(&s), solves++;
    }
    qbf_free(&s.q);
    if (wrong > before) printf("in session %" PRIu64 "\n", seed);
}

int main(int count, char **words) {
    uint64_t sessions = count > 1 ? strtoull(words[1], NULL, 10) : 100;
    for (uint64_t seed = 0; seed < sessions && wrong < 10; seed++) run(seed);
    return wrong != 0;
}
