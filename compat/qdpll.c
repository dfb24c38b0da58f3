/* The names of DepQBF's interface over libqbf (qdpll.h). Nothing here is proved.
 *
 * Scopes of one quantifier beside each other are one scope of the library, a block, as DepQBF has it. The layer keeps
 * the prefix and the clauses too. It answers from them what the library isn't asked, and makes a new solver of them for
 * what the library can't do: variables that go, and a scope that splits a block. What was learned is then lost.
 */
#include "qdpll.h"

#include "qbf.h"

#include <limits.h>
#include <stdlib.h>
#include <string.h>

/* A list that grows. */
typedef struct numbers {
    int64_t *at;
    size_t count, room;
} numbers;

/* A scope, and the block that it is part of: a scope of the library. */
typedef struct scope {
    QDPLLQuantifierType type;
    Nesting nesting;
    uint64_t block;
    numbers vars;
} scope;

/* What is known of a variable: its scope, NULL where it has none, and the sign by which it is assumed, or 0. */
typedef struct variable {
    scope *home;
    int assumed;
} variable;

/* A clause: its first literal among those of all clauses, and how many it has. */
typedef struct clause {
    size_t first, count;
    ClauseGroupID group;
    unsigned int frame;
} clause;

typedef enum group_state { GROUP_GONE, GROUP_ACTIVE, GROUP_INACTIVE } group_state;

struct QDPLL {
    qbf solver;
    scope **scopes; /* by nesting; number 0 has the free variables */
    Nesting depth;
    size_t scope_room;
    variable *variables; /* by number */
    size_t variable_room;
    VarID greatest; /* that has a home */
    clause *clauses; /* those of groups that are gone stay until the next rebuild */
    size_t clause_count, clause_room;
    numbers lits; /* of all clauses, and behind them those of the clause that is being added */
    scope *opened;
    numbers assumed;
    unsigned int frames;
    group_state *groups; /* by number, from 1 */
    ClauseGroupID group_count, group;
    size_t group_room;
    int uses_frames, uses_groups;
    QDPLLResult result;
    int had_assumptions;
};

/* ---- Misuse, memory and lists ---- */

static void stop(const char *call, const char *why) {
    fprintf(stderr, "qdpll over qbf: %s: %s\n", call, why);
    abort();
}

static void want(int holds, const char *call, const char *why) {
    if (!holds) stop(call, why);
}

/* A call of the library is to be accepted. */
static void accept(uint32_t code, const char *call) {
    if (code == QBF_OK) return;
    if (code == QBF_NO_MEMORY) stop(call, "there is no memory");
    fprintf(stderr, "qdpll over qbf: %s: refused with %lu\n", call, (unsigned long)code);
    abort();
}

/* An array with room for `wanted` elements, which is at least doubled where it has less. What is new is zero. */
static void *with_room(void *array, size_t *room, size_t wanted, size_t size) {
    if (wanted <= *room) return array;
    size_t greater = 2 * *room > wanted ? 2 * *room : wanted + 8;
    array = realloc(array, greater * size);
    want(array != NULL, "memory", "there is none");
    memset((char *)array + *room * size, 0, (greater - *room) * size);
    *room = greater;
    return array;
}

static void put(numbers *list, int64_t number) {
    list->at = with_room(list->at, &list->room, list->count + 1, sizeof *list->at);
    list->at[list->count++] = number;
}

static VarID var_of(int64_t literal) { return (VarID)(literal < 0 ? -literal : literal); }

/* ---- The prefix ---- */

static int has_free(const QDPLL *s) { return s->scopes[0]->vars.count != 0; }

/* The scope of a variable, or NULL. */
static scope *home_of(const QDPLL *s, VarID var) {
    return var < s->variable_room ? s->variables[var].home : NULL;
}

/* That of one that is to be declared. */
static scope *declared(const QDPLL *s, VarID var, const char *call) {
    scope *home = home_of(s, var);
    want(home != NULL, call, "the variable isn't declared");
    return home;
}

/* The scope before the one of this nesting, and the one of that nesting; NULL where there is none. */
static scope *before(const QDPLL *s, Nesting nesting) {
    return nesting > 1 || has_free(s) ? s->scopes[nesting - 1] : NULL;
}

static scope *at_nesting(const QDPLL *s, Nesting nesting) {
    return nesting <= s->depth ? s->scopes[nesting] : NULL;
}

/* Numbers the scopes and their blocks from this nesting on. */
static void number_from(QDPLL *s, Nesting nesting) {
    for (Nesting n = nesting; n <= s->depth; n++) {
        scope *last = before(s, n), *here = s->scopes[n];
        here->nesting = n;
        here->block = !last ? 1 : last->block + (last->type != here->type);
    }
}

static scope *new_scope(QDPLLQuantifierType type) {
    scope *made = calloc(1, sizeof *made);
    want(made != NULL, "memory", "there is none");
    made->type = type;
    made->block = 1;
    return made;
}

static void free_scope(scope *s) {
    free(s->vars.at);
    free(s);
}

/* Notes that a variable stands in a scope. */
static void settle(QDPLL *s, VarID var, scope *home) {
    s->variables = with_room(s->variables, &s->variable_room, (size_t)var + 1, sizeof *s->variables);
    s->variables[var].home = home;
    if (var > s->greatest) s->greatest = var;
    put(&home->vars, var);
}

/* A variable that no scope declares is existential and outermost. */
static void add_free(QDPLL *s, VarID var) {
    scope *first = at_nesting(s, 1);
    int joins = has_free(s) || (first && first->type == QDPLL_QTYPE_EXISTS);
    if (!joins) accept(qbf_scope(&s->solver, false, 1), "qdpll_add");
    accept(qbf_var(&s->solver, var, 1), "qdpll_add");
    settle(s, var, s->scopes[0]);
    if (!joins) number_from(s, 1);
}

/* ---- A new solver of what is kept ---- */

static void build_prefix(QDPLL *s) {
    for (Nesting n = has_free(s) ? 0 : 1; n <= s->depth; n++) {
        scope *here = s->scopes[n], *last = n ? before(s, n) : NULL;
        if (!last || last->block != here->block)
            accept(qbf_scope(&s->solver, here->type == QDPLL_QTYPE_FORALL, 0), "a new solver");
        for (size_t i = 0; i < here->vars.count; i++)
            accept(qbf_var(&s->solver, (uint64_t)here->vars.at[i], here->block), "a new solver");
    }
}

/* The library is given a clause. */
static void give(QDPLL *s, const clause *c, const char *call) {
    static const int64_t none = 0;
    accept(qbf_clause(&s->solver, c->count ? s->lits.at + c->first : &none, c->count), call);
}

/* The clauses in their order, each in its group or its frame. */
static void build_clauses(QDPLL *s) {
    ClauseGroupID group = 0;
    unsigned int frame = 0;
    for (size_t i = 0; i < s->clause_count; i++) {
        const clause *c = &s->clauses[i];
        if (c->group != group && group) accept(qbf_close_group(&s->solver), "a new solver");
        if (c->group != group && c->group) accept(qbf_open_group(&s->solver, c->group), "a new solver");
        group = c->group;
        for (; frame < c->frame; frame++) accept(qbf_push(&s->solver), "a new solver");
        give(s, c, "a new solver");
    }
    if (group) accept(qbf_close_group(&s->solver), "a new solver");
    for (; frame < s->frames; frame++) accept(qbf_push(&s->solver), "a new solver");
}

/* The groups, each of which is active until it is made inactive. */
static void build_groups(QDPLL *s) {
    for (ClauseGroupID g = 1; g <= s->group_count; g++) {
        if (s->groups[g] == GROUP_GONE) continue;
        accept(qbf_open_group(&s->solver, g), "a new solver");
        accept(qbf_close_group(&s->solver), "a new solver");
    }
}

static void build_states(QDPLL *s) {
    for (ClauseGroupID g = 1; g <= s->group_count; g++)
        if (s->groups[g] == GROUP_INACTIVE) accept(qbf_deactivate(&s->solver, g), "a new solver");
    if (s->group) accept(qbf_open_group(&s->solver, s->group), "a new solver");
}

static int is_gone(const QDPLL *s, const clause *c) { return c->group && s->groups[c->group] == GROUP_GONE; }

/* Drops the clauses of groups that are gone. No clause is being added. */
static void drop_gone(QDPLL *s) {
    size_t clauses = 0, lits = 0;
    for (size_t i = 0; i < s->clause_count; i++) {
        clause c = s->clauses[i];
        if (is_gone(s, &c)) continue;
        memmove(s->lits.at + lits, s->lits.at + c.first, c.count * sizeof *s->lits.at);
        c.first = lits;
        lits += c.count;
        s->clauses[clauses++] = c;
    }
    s->clause_count = clauses;
    s->lits.count = lits;
}

static void rebuild(QDPLL *s) {
    accept(qbf_new(&s->solver), "a new solver");
    if (s->clause_count) drop_gone(s);
    build_prefix(s);
    build_groups(s);
    build_clauses(s);
    build_states(s);
    s->result = QDPLL_RESULT_UNKNOWN;
}

/* Where the next clause's literals begin. */
static size_t kept_lits(const QDPLL *s) {
    if (!s->clause_count) return 0;
    const clause *last = &s->clauses[s->clause_count - 1];
    return last->first + last->count;
}

static int is_adding(const QDPLL *s) { return s->opened || s->lits.count != kept_lits(s); }

/* ---- A solver ---- */

QDPLL *qdpll_create(void) {
    QDPLL *s = calloc(1, sizeof *s);
    if (!s) return NULL;
    if (qbf_new(&s->solver) != QBF_OK) {
        free(s);
        return NULL;
    }
    s->scopes = with_room(NULL, &s->scope_room, 1, sizeof *s->scopes);
    s->scopes[0] = new_scope(QDPLL_QTYPE_EXISTS);
    return s;
}

void qdpll_delete(QDPLL *s) {
    qbf_free(&s->solver);
    for (Nesting n = 0; n <= s->depth; n++) free_scope(s->scopes[n]);
    free(s->scopes);
    free(s->variables);
    free(s->clauses);
    free(s->lits.at);
    free(s->assumed.at);
    free(s->groups);
    free(s);
}

char *qdpll_configure(QDPLL *s, char *option) {
    (void)s;
    static char unknown[] = "unknown option";
    return !strncmp(option, "--", 2) && strncmp(option, "--max-", 6) ? NULL : unknown;
}

void qdpll_adjust_vars(QDPLL *s, VarID greatest) {
    s->variables = with_room(s->variables, &s->variable_room, (size_t)greatest + 1, sizeof *s->variables);
}

/* ---- Questions about the prefix ---- */

Nesting qdpll_get_max_scope_nesting(QDPLL *s) { return s->depth; }

QDPLLQuantifierType qdpll_get_scope_type(QDPLL *s, Nesting nesting) {
    return nesting && nesting <= s->depth ? s->scopes[nesting]->type : QDPLL_QTYPE_UNDEF;
}

VarID qdpll_get_max_declared_var_id(QDPLL *s) { return s->greatest; }

int qdpll_is_var_declared(QDPLL *s, VarID var) { return home_of(s, var) != NULL; }

Nesting qdpll_get_nesting_of_var(QDPLL *s, VarID var) { return declared(s, var, "qdpll_get_nesting_of_var")->nesting; }

int qdpll_has_var_active_occs(QDPLL *s, VarID var) {
    (void)s, (void)var;
    stop("qdpll_has_var_active_occs", "it is deprecated");
    return 0;
}

/* ---- Scopes ---- */

Nesting qdpll_new_scope(QDPLL *s, QDPLLQuantifierType type) {
    return qdpll_new_scope_at_nesting(s, type, s->depth + 1);
}

Nesting qdpll_new_scope_at_nesting(QDPLL *s, QDPLLQuantifierType type, Nesting nesting) {
    const char *call = "qdpll_new_scope";
    want(!is_adding(s), call, "a scope or a clause is open");
    want(nesting && nesting <= s->depth + 1, call, "there is no place of that nesting");
    want(type == QDPLL_QTYPE_EXISTS || type == QDPLL_QTYPE_FORALL, call, "there is no such quantifier");
    scope *last = before(s, nesting), *next = at_nesting(s, nesting), *made = new_scope(type);
    s->scopes = with_room(s->scopes, &s->scope_room, (size_t)s->depth + 2, sizeof *s->scopes);
    memmove(s->scopes + nesting + 1, s->scopes + nesting, (s->depth + 1 - nesting) * sizeof *s->scopes);
    s->scopes[nesting] = made;
    s->depth++;
    number_from(s, nesting);
    int joins = (last && last->type == type) || (next && next->type == type);
    if (last && next && last->type == next->type && !joins) rebuild(s);
    else if (!joins) accept(qbf_scope(&s->solver, type == QDPLL_QTYPE_FORALL, made->block), call);
    s->opened = made;
    return nesting;
}

void qdpll_add_var_to_scope(QDPLL *s, VarID var, Nesting nesting) {
    const char *call = "qdpll_add_var_to_scope";
    want(nesting && nesting <= s->depth, call, "there is no scope of that nesting");
    accept(qbf_var(&s->solver, var, s->scopes[nesting]->block), call);
    settle(s, var, s->scopes[nesting]);
}

/* Keeps those variables of a scope that are marked. */
static void keep_marked(QDPLL *s, scope *here, const char *marks) {
    size_t kept = 0;
    for (size_t i = 0; i < here->vars.count; i++) {
        int64_t var = here->vars.at[i];
        if (marks[var]) here->vars.at[kept++] = var;
        else s->variables[var] = (variable){NULL, 0};
    }
    here->vars.count = kept;
}

void qdpll_gc(QDPLL *s) {
    want(!is_adding(s), "qdpll_gc", "a scope or a clause is open");
    qdpll_reset(s);
    char *marks = calloc(s->variable_room + 1, 1);
    want(marks != NULL, "memory", "there is none");
    for (size_t i = 0; i < s->clause_count; i++) {
        const clause *c = &s->clauses[i];
        for (size_t j = 0; j < c->count && !is_gone(s, c); j++) marks[var_of(s->lits.at[c->first + j])] = 1;
    }
    Nesting kept = 0;
    for (Nesting n = 0; n <= s->depth; n++) {
        scope *here = s->scopes[n];
        keep_marked(s, here, marks);
        if (n && here->vars.count) s->scopes[++kept] = here;
        else if (n) free_scope(here);
    }
    s->depth = kept;
    while (s->greatest && !s->variables[s->greatest].home) s->greatest--;
    free(marks);
    number_from(s, 1);
    rebuild(s);
}

/* ---- Clauses ---- */

static void end_clause(QDPLL *s) {
    size_t first = kept_lits(s);
    clause made = {first, s->lits.count - first, s->group, s->frames};
    for (size_t i = first; i < s->lits.count; i++)
        if (!home_of(s, var_of(s->lits.at[i]))) add_free(s, var_of(s->lits.at[i]));
    give(s, &made, "qdpll_add");
    s->clauses = with_room(s->clauses, &s->clause_room, s->clause_count + 1, sizeof *s->clauses);
    s->clauses[s->clause_count++] = made;
    s->result = QDPLL_RESULT_UNKNOWN;
}

void qdpll_add(QDPLL *s, LitID id) {
    if (!s->opened && id) {
        put(&s->lits, id);
    } else if (!s->opened) {
        end_clause(s);
    } else if (id) {
        want(id > 0, "qdpll_add", "a variable is negative");
        qdpll_add_var_to_scope(s, (VarID)id, s->opened->nesting);
    } else {
        s->opened = NULL;
    }
}

/* ---- Frames ---- */

static void begin_frame_call(QDPLL *s, const char *call) {
    want(!s->uses_groups, call, "frames and groups are mixed");
    want(!is_adding(s), call, "a scope or a clause is open");
    s->uses_frames = 1;
    s->result = QDPLL_RESULT_UNKNOWN;
}

unsigned int qdpll_push(QDPLL *s) {
    begin_frame_call(s, "qdpll_push");
    accept(qbf_push(&s->solver), "qdpll_push");
    return ++s->frames;
}

unsigned int qdpll_pop(QDPLL *s) {
    begin_frame_call(s, "qdpll_pop");
    if (!s->frames) return 0;
    accept(qbf_pop(&s->solver), "qdpll_pop");
    while (s->clause_count && s->clauses[s->clause_count - 1].frame == s->frames) s->clause_count--;
    s->lits.count = kept_lits(s);
    return s->frames--;
}

/* ---- Groups ---- */

static void begin_group_call(QDPLL *s, const char *call) {
    want(!s->uses_frames, call, "frames and groups are mixed");
    want(!is_adding(s), call, "a scope or a clause is open");
    s->uses_groups = 1;
    s->result = QDPLL_RESULT_UNKNOWN;
}

/* A call for a group that is in one of two states. */
static void begin_call_of(QDPLL *s, ClauseGroupID group, group_state first, group_state second, const char *call) {
    begin_group_call(s, call);
    want(qdpll_exists_clause_group(s, group), call, "there is no such group");
    want(s->groups[group] == first || s->groups[group] == second, call, "the group is inactive");
}

ClauseGroupID qdpll_new_clause_group(QDPLL *s) {
    const char *call = "qdpll_new_clause_group";
    begin_group_call(s, call);
    want(!s->group, call, "a group is open");
    s->groups = with_room(s->groups, &s->group_room, (size_t)s->group_count + 2, sizeof *s->groups);
    accept(qbf_open_group(&s->solver, s->group_count + 1), call);
    accept(qbf_close_group(&s->solver), call);
    s->groups[++s->group_count] = GROUP_ACTIVE;
    return s->group_count;
}

void qdpll_delete_clause_group(QDPLL *s, ClauseGroupID group) {
    const char *call = "qdpll_delete_clause_group";
    begin_call_of(s, group, GROUP_ACTIVE, GROUP_ACTIVE, call);
    want(!s->group, call, "a group is open");
    /* The library doesn't delete: the group is inactive for good, and goes with the next rebuild. */
    accept(qbf_deactivate(&s->solver, group), call);
    s->groups[group] = GROUP_GONE;
}

void qdpll_open_clause_group(QDPLL *s, ClauseGroupID group) {
    begin_call_of(s, group, GROUP_ACTIVE, GROUP_ACTIVE, "qdpll_open_clause_group");
    accept(qbf_open_group(&s->solver, group), "qdpll_open_clause_group");
    s->group = group;
}

void qdpll_close_clause_group(QDPLL *s, ClauseGroupID group) {
    begin_call_of(s, group, GROUP_ACTIVE, GROUP_ACTIVE, "qdpll_close_clause_group");
    want(s->group == group, "qdpll_close_clause_group", "the group isn't open");
    accept(qbf_close_group(&s->solver), "qdpll_close_clause_group");
    s->group = 0;
}

ClauseGroupID qdpll_get_open_clause_group(QDPLL *s) { return s->group; }

int qdpll_exists_clause_group(QDPLL *s, ClauseGroupID group) {
    return group && group <= s->group_count && s->groups[group] != GROUP_GONE;
}

void qdpll_activate_clause_group(QDPLL *s, ClauseGroupID group) {
    begin_call_of(s, group, GROUP_ACTIVE, GROUP_INACTIVE, "qdpll_activate_clause_group");
    accept(qbf_activate(&s->solver, group), "qdpll_activate_clause_group");
    s->groups[group] = GROUP_ACTIVE;
}

void qdpll_deactivate_clause_group(QDPLL *s, ClauseGroupID group) {
    begin_call_of(s, group, GROUP_ACTIVE, GROUP_ACTIVE, "qdpll_deactivate_clause_group");
    accept(qbf_deactivate(&s->solver, group), "qdpll_deactivate_clause_group");
    s->groups[group] = GROUP_INACTIVE;
}

/* ---- Solving ---- */

void qdpll_assume(QDPLL *s, LitID id) {
    VarID var = var_of(id);
    want(declared(s, var, "qdpll_assume")->block == 1, "qdpll_assume", "the variable isn't in the first block");
    want(!s->variables[var].assumed, "qdpll_assume", "the variable is assumed already");
    s->variables[var].assumed = id < 0 ? -1 : 1;
    put(&s->assumed, id);
}

static void forget_assumed(QDPLL *s) {
    for (size_t i = 0; i < s->assumed.count; i++) s->variables[var_of(s->assumed.at[i])].assumed = 0;
    s->assumed.count = 0;
}

QDPLLResult qdpll_sat(QDPLL *s) {
    uint32_t code = QBF_OK;
    uint64_t spent;
    want(!is_adding(s), "qdpll_sat", "a scope or a clause is open");
    for (size_t i = 0; i < s->assumed.count && code != QBF_NO_MEMORY; i++) {
        code = qbf_assume(&s->solver, s->assumed.at[i]);
        if (code != QBF_NO_MEMORY) accept(code, "qdpll_sat");
    }
    if (code == QBF_OK) code = qbf_solve(&s->solver, UINT64_MAX, &spent);
    accept(qbf_forget_assumptions(&s->solver), "qdpll_sat");
    s->had_assumptions = s->assumed.count != 0;
    forget_assumed(s);
    s->result = code == QBF_TRUE ? QDPLL_RESULT_SAT : code == QBF_FALSE ? QDPLL_RESULT_UNSAT : QDPLL_RESULT_UNKNOWN;
    return s->result;
}

void qdpll_reset(QDPLL *s) {
    forget_assumed(s);
    s->result = QDPLL_RESULT_UNKNOWN;
}

void qdpll_reset_learned_constraints(QDPLL *s) {
    want(!is_adding(s), "qdpll_reset_learned_constraints", "a scope or a clause is open");
    rebuild(s);
}

/* ---- Questions about the last result ---- */

QDPLLAssignment qdpll_get_value(QDPLL *s, VarID var) {
    int32_t lit;
    declared(s, var, "qdpll_get_value");
    if (qbf_value(&s->solver, var, &lit) != QBF_OK) return QDPLL_ASSIGNMENT_UNDEF;
    return lit > 0 ? QDPLL_ASSIGNMENT_TRUE : QDPLL_ASSIGNMENT_FALSE;
}

/* A list of so many numbers, and 0 behind them. */
static void *list_of(size_t count) {
    void *list = calloc(count + 1, sizeof(uint32_t));
    want(list != NULL, "memory", "there is none");
    return list;
}

/* The first block: the free variables, and the scopes from 1 on that are in it. */
static Nesting first_block(const QDPLL *s) {
    Nesting n = 0;
    while (n < s->depth && s->scopes[n + 1]->block == 1) n++;
    return n;
}

LitID *qdpll_get_assumption_candidates(QDPLL *s) {
    size_t count = 0;
    Nesting last = first_block(s);
    for (Nesting n = 0; n <= last; n++) count += s->scopes[n]->vars.count;
    LitID *list = list_of(count), *next = list;
    for (Nesting n = 0; n <= last; n++) {
        const scope *here = s->scopes[n];
        for (size_t i = 0; i < here->vars.count; i++) {
            LitID var = (LitID)here->vars.at[i];
            *next++ = here->type == QDPLL_QTYPE_EXISTS ? var : -var;
        }
    }
    return list;
}

LitID *qdpll_get_relevant_assumptions(QDPLL *s) {
    const char *call = "qdpll_get_relevant_assumptions";
    want(s->result != QDPLL_RESULT_UNKNOWN, call, "there is no result");
    want(s->had_assumptions, call, "nothing was assumed");
    size_t count = 0;
    int32_t none = 0;
    uint32_t code = qbf_relevant(&s->solver, &none, 0, &count);
    if (code != QBF_SHORT) accept(code, call);
    LitID *list = list_of(count);
    accept(qbf_relevant(&s->solver, list, count, &count), call);
    return list;
}

ClauseGroupID *qdpll_get_relevant_clause_groups(QDPLL *s) {
    const char *call = "qdpll_get_relevant_clause_groups";
    want(s->result == QDPLL_RESULT_UNSAT, call, "the formula isn't false");
    ClauseGroupID *list = list_of(s->group_count);
    size_t count;
    accept(qbf_group_core(&s->solver, UINT64_MAX, list, s->group_count, &count), call);
    return list;
}

/* ---- Output ---- */

static void print_scope(const scope *here, FILE *out) {
    fputc(here->type == QDPLL_QTYPE_FORALL ? 'a' : 'e', out);
    for (size_t i = 0; i < here->vars.count; i++) fprintf(out, " %ld", (long)here->vars.at[i]);
    fputs(" 0\n", out);
}

/* Whether a clause is in the formula. */
static int is_active(const QDPLL *s, const clause *c) { return !c->group || s->groups[c->group] == GROUP_ACTIVE; }

static size_t active_clauses(const QDPLL *s) {
    size_t count = 0;
    for (size_t i = 0; i < s->clause_count; i++) count += (size_t)is_active(s, &s->clauses[i]);
    return count;
}

void qdpll_print(QDPLL *s, FILE *out) {
    fprintf(out, "p cnf %u %zu\n", qdpll_get_max_declared_var_id(s), active_clauses(s));
    for (Nesting n = has_free(s) ? 0 : 1; n <= s->depth; n++) print_scope(s->scopes[n], out);
    for (size_t i = 0; i < s->clause_count; i++) {
        const clause *c = &s->clauses[i];
        if (!is_active(s, c)) continue;
        for (size_t j = 0; j < c->count; j++) fprintf(out, "%ld ", (long)s->lits.at[c->first + j]);
        fputs("0\n", out);
    }
}

void qdpll_print_qdimacs_output(QDPLL *s) {
    int verdict = s->result == QDPLL_RESULT_SAT ? 1 : s->result == QDPLL_RESULT_UNSAT ? 0 : -1;
    printf("s cnf %d %u %zu\n", verdict, qdpll_get_max_declared_var_id(s), active_clauses(s));
    LitID *first = qdpll_get_assumption_candidates(s);
    for (const LitID *at = first; *at; at++) {
        int32_t lit;
        if (qbf_value(&s->solver, var_of(*at), &lit) == QBF_OK) printf("V %ld 0\n", (long)lit);
    }
    free(first);
}

/* ---- Dependencies ---- */

void qdpll_init_deps(QDPLL *s) { (void)s; }

void qdpll_reset_deps(QDPLL *s) { (void)s; }

static int depends(const scope *first, const scope *second) {
    return first->nesting < second->nesting && first->type != second->type;
}

int qdpll_var_depends(QDPLL *s, VarID first, VarID second) {
    return depends(declared(s, first, "qdpll_var_depends"), declared(s, second, "qdpll_var_depends"));
}

void qdpll_print_deps(QDPLL *s, VarID var) {
    const scope *home = declared(s, var, "qdpll_print_deps");
    for (Nesting n = home->nesting + 1; n <= s->depth; n++) {
        const scope *here = s->scopes[n];
        for (size_t i = 0; i < here->vars.count && depends(home, here); i++) printf("%ld ", (long)here->vars.at[i]);
    }
    printf("0\n");
}

void qdpll_dump_dep_graph(QDPLL *s) {
    (void)s;
    stop("qdpll_dump_dep_graph", "there is no dependency graph");
}

/* ---- Statistics ---- */

void qdpll_print_stats(QDPLL *s) { (void)s; }

void qdpll_reset_stats(QDPLL *s) { (void)s; }
