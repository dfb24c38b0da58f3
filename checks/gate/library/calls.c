/* Each call, with each code that it may answer but for want of memory and limits that take long to reach. */
#include "expect.h"

static const uint8_t any = 7;

/* A handle that holds nothing: before qbf_new, and after qbf_free. */
static void no_engine(qbf *q) {
    uint64_t wide = 7;
    uint32_t number = 7;
    int32_t lit = 7;
    size_t count = 7;
    uint8_t bytes[1] = {7};
    EXPECT(QBF_NO_ENGINE, qbf_scope(q, true, 0));
    EXPECT(QBF_NO_ENGINE, qbf_var(q, 1, 1));
    EXPECT(QBF_NO_ENGINE, qbf_scopes(q, &wide));
    EXPECT(QBF_NO_ENGINE, qbf_vars(q, &wide));
    EXPECT(QBF_NO_ENGINE, qbf_is_forall(q, 1, &number));
    EXPECT(QBF_NO_ENGINE, qbf_scope_of(q, 1, &wide));
    EXPECT(QBF_NO_ENGINE, qbf_scope_vars(q, 1, &number, 1, &count));
    EXPECT(QBF_NO_ENGINE, CLAUSE(q, 1));
    EXPECT(QBF_NO_ENGINE, qbf_push(q));
    EXPECT(QBF_NO_ENGINE, qbf_pop(q));
    EXPECT(QBF_NO_ENGINE, qbf_depth(q, &wide));
    EXPECT(QBF_NO_ENGINE, qbf_open_group(q, 1));
    EXPECT(QBF_NO_ENGINE, qbf_close_group(q));
    EXPECT(QBF_NO_ENGINE, qbf_activate(q, 1));
    EXPECT(QBF_NO_ENGINE, qbf_deactivate(q, 1));
    EXPECT(QBF_NO_ENGINE, qbf_write(q, bytes, 1, &count));
    EXPECT(QBF_NO_ENGINE, qbf_assume(q, 1));
    EXPECT(QBF_NO_ENGINE, qbf_forget_assumptions(q));
    EXPECT(QBF_NO_ENGINE, qbf_solve(q, 1, &wide));
    EXPECT(QBF_NO_ENGINE, qbf_set_restarts(q, 1));
    EXPECT(QBF_NO_ENGINE, qbf_set_kept_rows(q, 16));
    EXPECT(QBF_NO_ENGINE, qbf_kept_long(q, &wide));
    EXPECT(QBF_NO_ENGINE, qbf_verdict(q));
    EXPECT(QBF_NO_ENGINE, qbf_value(q, 1, &lit));
    EXPECT(QBF_NO_ENGINE, qbf_relevant(q, &lit, 1, &count));
    EXPECT(QBF_NO_ENGINE, qbf_group_core(q, 1, &number, 1, &count));
    EXPECT(QBF_NO_ENGINE, qbf_certificate(q, false, false, bytes, 1, &count));
    EXPECT(QBF_NO_ENGINE, qbf_trace(q, bytes, 1, &count));
    EXPECT(QBF_NO_ENGINE, qbf_check_formula(q, false, bytes, 1, &count));
    HOLDS(wide == 7 && number == 7 && lit == 7 && count == 7 && bytes[0] == 7);
}

/* Scopes and variables, and what is asked of them. */
static void prefix(qbf *q) {
    uint64_t wide = 7;
    uint32_t forall = 7, vars[3] = {7, 7, 7};
    size_t count = 7;
    three_scopes(q);
    EXPECT(QBF_SCOPE_RANGE, qbf_scope(q, true, 5));
    EXPECT(QBF_VAR_TWICE, qbf_var(q, 1, 9));
    EXPECT(QBF_VAR_RANGE, qbf_var(q, 0, 9));
    EXPECT(QBF_VAR_RANGE, qbf_var(q, 1048577, 9));
    EXPECT(QBF_SCOPE_RANGE, qbf_var(q, 4, 4));
    EXPECT(QBF_SCOPE_RANGE, qbf_var(q, 4, 0));
    EXPECT(QBF_OK, qbf_scopes(q, &wide));
    HOLDS(wide == 3);
    EXPECT(QBF_OK, qbf_vars(q, &wide));
    HOLDS(wide == 3);
    EXPECT(QBF_SCOPE_RANGE, qbf_is_forall(q, 0, &forall));
    EXPECT(QBF_SCOPE_RANGE, qbf_is_forall(q, UINT64_MAX, &forall));
    HOLDS(forall == 7);
    EXPECT(QBF_OK, qbf_is_forall(q, 2, &forall));
    HOLDS(forall == 1);
    EXPECT(QBF_OK, qbf_is_forall(q, 3, &forall));
    HOLDS(forall == 0);
    EXPECT(QBF_UNKNOWN_VAR, qbf_scope_of(q, 4, &wide));
    EXPECT(QBF_UNKNOWN_VAR, qbf_scope_of(q, UINT64_MAX, &wide));
    EXPECT(QBF_OK, qbf_scope_of(q, 2, &wide));
    HOLDS(wide == 3);
    EXPECT(QBF_OK, qbf_var(q, 9, 3));
    EXPECT(QBF_SCOPE_RANGE, qbf_scope_vars(q, 4, vars, 3, &count));
    HOLDS(count == 7 && vars[0] == 7);
    EXPECT(QBF_SHORT, qbf_scope_vars(q, 3, vars, 1, &count));
    HOLDS(count == 2 && vars[0] == 7);
    EXPECT(QBF_OK, qbf_scope_vars(q, 3, vars, 3, &count));
    HOLDS(count == 2 && vars[0] == 2 && vars[1] == 9 && vars[2] == 7);
}

/* Clauses, frames, and the verdicts over exists 3, forall 1, exists 2. */
static void frames(qbf *q) {
    uint64_t depth = 7, spent = 7;
    int32_t lit = 7;
    EXPECT(QBF_UNKNOWN_VAR, CLAUSE(q, 4));
    EXPECT(QBF_UNKNOWN_VAR, CLAUSE(q, INT64_MIN));
    EXPECT(QBF_UNKNOWN_VAR, CLAUSE(q, 0));
    EXPECT(QBF_OK, CLAUSE(q, 3, 1, 2));
    EXPECT(QBF_OK, CLAUSE(q, 3, -1, -2));
    EXPECT(QBF_NO_FRAME, qbf_pop(q));
    EXPECT(QBF_NO_VERDICT, qbf_verdict(q));
    EXPECT(0, qbf_solve(q, 0, &spent));
    HOLDS(spent == 0);
    EXPECT(QBF_NO_VERDICT, qbf_verdict(q));
    EXPECT(QBF_TRUE, qbf_solve(q, 1000, &spent));
    EXPECT(QBF_TRUE, qbf_verdict(q));
    HOLDS(spent > 0 && spent <= 1000);
    EXPECT(QBF_NOT_OUTERMOST, qbf_value(q, 1, &lit));
    EXPECT(QBF_NOT_OUTERMOST, qbf_value(q, UINT64_MAX, &lit));
    HOLDS(lit == 7);
    EXPECT(QBF_OK, qbf_value(q, 3, &lit));
    HOLDS(lit == 3 || lit == -3);
    EXPECT(QBF_OK, qbf_push(q));
    EXPECT(QBF_OK, qbf_depth(q, &depth));
    HOLDS(depth == 1);
    EXPECT(QBF_NO_VERDICT, qbf_value(q, 3, &lit));
    EXPECT(QBF_OK, CLAUSE(q, -3));
    EXPECT(QBF_OK, CLAUSE(q, 2));
    EXPECT(QBF_FALSE, qbf_solve(q, 1000, &spent));
    EXPECT(QBF_NOT_WINNER, qbf_value(q, 3, &lit));
    EXPECT(QBF_OK, qbf_pop(q));
}

/* Assumptions, and what matters of them. */
static void assumptions(qbf *q) {
    uint64_t spent;
    int32_t lits[2] = {7, 7};
    size_t count = 7;
    EXPECT(QBF_OK, qbf_push(q));
    EXPECT(QBF_OK, CLAUSE(q, 3));
    EXPECT(QBF_UNKNOWN_VAR, qbf_assume(q, 4));
    EXPECT(QBF_ASSUME_SCOPE, qbf_assume(q, 1));
    EXPECT(QBF_OK, qbf_assume(q, -3));
    EXPECT(QBF_ASSUME_CLASH, qbf_assume(q, 3));
    EXPECT(QBF_ASSUMPTIONS_HELD, qbf_scope(q, true, 0));
    EXPECT(QBF_ASSUMPTIONS_HELD, qbf_var(q, 4, 1));
    EXPECT(QBF_OK, qbf_forget_assumptions(q));
    EXPECT(QBF_TRUE, qbf_solve(q, 1000, &spent));
    EXPECT(QBF_OK, qbf_forget_assumptions(q));
    EXPECT(QBF_TRUE, qbf_verdict(q));
    EXPECT(QBF_OK, qbf_assume(q, -3));
    EXPECT(QBF_NO_VERDICT, qbf_verdict(q));
    EXPECT(QBF_NO_VERDICT, qbf_relevant(q, lits, 2, &count));
    EXPECT(QBF_FALSE, qbf_solve(q, 1000, &spent));
    EXPECT(QBF_SHORT, qbf_relevant(q, lits, 0, &count));
    HOLDS(count == 1 && lits[0] == 7);
    EXPECT(QBF_OK, qbf_relevant(q, lits, 2, &count));
    HOLDS(count == 1 && lits[0] == -3 && lits[1] == 7);
    EXPECT(QBF_OK, qbf_pop(q));
}

/* Groups, and a core of them. */
static void groups(qbf *q) {
    uint64_t spent;
    uint32_t core[2] = {7, 7};
    size_t count = 7;
    EXPECT(QBF_GROUP_RANGE, qbf_open_group(q, 0));
    EXPECT(QBF_GROUP_RANGE, qbf_open_group(q, 65537));
    EXPECT(QBF_NO_GROUP, qbf_close_group(q));
    EXPECT(QBF_NO_GROUP, qbf_activate(q, 5));
    EXPECT(QBF_OK, qbf_open_group(q, 5));
    EXPECT(QBF_GROUP_OPEN, qbf_open_group(q, 6));
    EXPECT(QBF_GROUP_OPEN, qbf_push(q));
    EXPECT(QBF_GROUP_OPEN, qbf_deactivate(q, 5));
    EXPECT(QBF_OK, CLAUSE(q, 2));
    EXPECT(QBF_OK, CLAUSE(q, -3));
    EXPECT(QBF_OK, qbf_close_group(q));
    EXPECT(QBF_OK, qbf_open_group(q, 6));
    EXPECT(QBF_OK, CLAUSE(q, 9));
    EXPECT(QBF_OK, qbf_close_group(q));
    EXPECT(QBF_NO_VERDICT, qbf_group_core(q, 1000, core, 2, &count));
    EXPECT(QBF_FALSE, qbf_solve(q, 1000, &spent));
    EXPECT(QBF_SPENT, qbf_group_core(q, 0, core, 2, &count));
    HOLDS(count == 7);
    EXPECT(QBF_SHORT, qbf_group_core(q, 1000, core, 0, &count));
    HOLDS(count == 1 && core[0] == 7);
    EXPECT(QBF_OK, qbf_group_core(q, 1000, core, 2, &count));
    HOLDS(count == 1 && core[0] == 5 && core[1] == 7);
    EXPECT(QBF_OK, qbf_deactivate(q, 5));
    EXPECT(QBF_TRUE, qbf_solve(q, 1000, &spent));
    EXPECT(QBF_NOT_FALSE, qbf_group_core(q, 1000, core, 2, &count));
    EXPECT(QBF_OK, qbf_push(q));
    EXPECT(QBF_GROUP_FRAME, qbf_open_group(q, 7));
    EXPECT(QBF_OK, qbf_pop(q));
    EXPECT(QBF_OK, qbf_activate(q, 5));
}

typedef uint32_t text_call(qbf *q, uint8_t *bytes, size_t length, size_t *count);

static uint32_t aag(qbf *q, uint8_t *b, size_t n, size_t *c) { return qbf_certificate(q, false, false, b, n, c); }
static uint32_t aig(qbf *q, uint8_t *b, size_t n, size_t *c) { return qbf_certificate(q, true, false, b, n, c); }
static uint32_t short_aag(qbf *q, uint8_t *b, size_t n, size_t *c) { return qbf_certificate(q, false, true, b, n, c); }
static uint32_t short_aig(qbf *q, uint8_t *b, size_t n, size_t *c) { return qbf_certificate(q, true, true, b, n, c); }
static uint32_t check(qbf *q, uint8_t *b, size_t n, size_t *c) { return qbf_check_formula(q, false, b, n, c); }
static uint32_t short_check(qbf *q, uint8_t *b, size_t n, size_t *c) { return qbf_check_formula(q, true, b, n, c); }

/* A text of a verdict: refused without one, fetched by its length, and with one byte less too long. */
static void text(qbf *q, text_call call, const char *front, int wants_verdict) {
    static uint8_t bytes[4000];
    size_t count = 7, room;
    uint64_t spent;
    memset(bytes, any, sizeof bytes);
    if (wants_verdict) {
        EXPECT(QBF_OK, qbf_push(q));
        EXPECT(QBF_NO_VERDICT, call(q, bytes, sizeof bytes, &count));
        HOLDS(count == 7 && bytes[0] == any);
        EXPECT(QBF_OK, qbf_pop(q));
        qbf_solve(q, 1000, &spent);
    }
    EXPECT(QBF_SHORT, call(q, bytes, 0, &room));
    HOLDS(bytes[0] == any && room > 0);
    EXPECT(QBF_SHORT, call(q, bytes, room - 1, &count));
    HOLDS(bytes[0] == any && count == room);
    EXPECT(QBF_OK, call(q, bytes, room, &count));
    HOLDS(count == room && bytes[room] == any && bytes[room - 1] == '\n');
    HOLDS(!memcmp(bytes, front, strlen(front)));
}

/* A text that is read, and is written again as it was. */
static void reading(void) {
    static const char formula[] = "p cnf 2 2\na 1 0\ne 2 0\n1 2 0\n-1 -2 0\n";
    static const char bad[] = "p cnf 2 2\na 1 0\ne 2 0\n1 3 0\n";
    qbf q = QBF_NONE;
    uint64_t spent;
    uint32_t line = 7;
    uint8_t bytes[100];
    size_t count;
    EXPECT(QBF_OK, qbf_read(&q, (const uint8_t *)formula, strlen(formula), &line));
    EXPECT(QBF_TEXT_UNKNOWN, qbf_read(&q, (const uint8_t *)bad, strlen(bad), &line));
    HOLDS(line == 4);
    EXPECT(QBF_TEXT_NO_HEADER, qbf_read(&q, (const uint8_t *)bad, 0, &line));
    HOLDS(line == 1);
    EXPECT(QBF_TRUE, qbf_solve(&q, 1000, &spent));
    EXPECT(QBF_OK, qbf_write(&q, bytes, sizeof bytes, &count));
    HOLDS(count == strlen(formula) && !memcmp(bytes, formula, count));
    qbf_free(&q);
}

/* Versions: from version 2 on a variable leaves with its frame. */
static void versions(void) {
    for (uint32_t version = 0; version <= 4; version++) {
        qbf q = QBF_NONE;
        uint64_t vars = 7;
        EXPECT(version == 0 || version == 4 ? QBF_VERSION : QBF_OK, qbf_new_version(&q, version));
        if (version == 0 || version == 4) continue;
        EXPECT(QBF_OK, qbf_scope(&q, false, 0));
        EXPECT(QBF_OK, qbf_push(&q));
        EXPECT(QBF_OK, qbf_var(&q, 1, 1));
        EXPECT(QBF_OK, qbf_pop(&q));
        EXPECT(QBF_OK, qbf_vars(&q, &vars));
        HOLDS(vars == (version == 1));
        qbf_free(&q);
    }
}

static void settings(qbf *q) {
    uint64_t rows = 7;
    EXPECT(QBF_OK, qbf_set_restarts(q, 3));
    EXPECT(QBF_KEPT_RANGE, qbf_set_kept_rows(q, 15));
    EXPECT(QBF_KEPT_RANGE, qbf_set_kept_rows(q, 16777217));
    EXPECT(QBF_OK, qbf_set_kept_rows(q, 16777216));
    EXPECT(QBF_OK, qbf_set_kept_rows(q, 16));
    EXPECT(QBF_OK, qbf_kept_long(q, &rows));
    HOLDS(rows == 0);
}

/* The whole program. */
static void program(void) {
    static const char formula[] = "p cnf 1 1\ne 1 0\n1 0\n", line[] = "solve";
    const uint8_t *words = (const uint8_t *)line, *input = (const uint8_t *)formula;
    uint8_t out[8] = {7, 7, 7, 7, 7, 7, 7, 7}, err[64];
    size_t written = 7, said = 7;
    EXPECT(10, qbf_run(words, 5, input, strlen(formula), out, sizeof out, err, sizeof err, &written, &said));
    HOLDS(written == 4 && said == 0 && !memcmp(out, "SAT\n", 4) && out[4] == 7);
    EXPECT(4, qbf_run(words, 5, input, strlen(formula), out, 3, err, sizeof err, &written, &said));
    EXPECT(2, qbf_run(words, 5, input, 3, out, sizeof out, err, sizeof err, &written, &said));
    HOLDS(written == 0 && said > 0 && !memcmp(err, "qbf: line ", 10));
    EXPECT(7, qbf_run(words, 3, input, 3, out, sizeof out, err, sizeof err, &written, &said));
}

int main(void) {
    qbf q = QBF_NONE;
    no_engine(&q);
    EXPECT(QBF_OK, qbf_new(&q));
    prefix(&q);
    frames(&q);
    assumptions(&q);
    groups(&q);
    settings(&q);
    text(&q, aag, "aag ", 1);
    text(&q, aig, "aig ", 1);
    text(&q, short_aag, "aag ", 1);
    text(&q, short_aig, "aig ", 1);
    text(&q, qbf_trace, "p qrp ", 1);
    text(&q, check, "p cnf ", 1);
    text(&q, short_check, "p cnf ", 1);
    text(&q, qbf_write, "p cnf 9 5\ne 3 0\na 1 0\ne 2 9 0\n", 0);
    qbf_free(&q);
    no_engine(&q);
    qbf_free(&q);
    reading();
    versions();
    program();
    return wrong != 0;
}
