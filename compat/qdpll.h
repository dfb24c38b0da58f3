/* The names of DepQBF's interface, version 5, over libqbf.
 *
 * A program that was written for DepQBF's library compiles against this header, and links with `-lqbf_qdpll -lqbf`.
 * docs/C.md has a table of all 42 functions: which are the same, which have a twist, and which can't be had. Nothing
 * here is proved but what libqbf answers.
 *
 * A misuse ends the process, as with DepQBF: a line on the error output says what was wrong, and abort is called. So
 * does want of memory, except in qdpll_sat, which then answers QDPLL_RESULT_UNKNOWN.
 *
 * Scopes are numbered from 1, the outermost, on; this number is their nesting. Variables that no scope declares are
 * existential, before all scopes, and have the nesting 0. Neighbouring scopes of one quantifier make one block.
 */
#ifndef QDPLL_H_INCLUDED
#define QDPLL_H_INCLUDED

#include <stdio.h>

#ifdef __cplusplus
extern "C" {
#endif

typedef struct QDPLL QDPLL;

typedef int LitID;
typedef unsigned int VarID;
typedef unsigned int ConstraintID;
typedef unsigned int Nesting;
typedef unsigned int ClauseGroupID;

typedef enum QDPLLResult {
    QDPLL_RESULT_UNKNOWN = 0,
    QDPLL_RESULT_SAT = 10,
    QDPLL_RESULT_UNSAT = 20
} QDPLLResult;

typedef enum QDPLLQuantifierType {
    QDPLL_QTYPE_EXISTS = -1,
    QDPLL_QTYPE_UNDEF = 0,
    QDPLL_QTYPE_FORALL = 1
} QDPLLQuantifierType;

typedef int QDPLLAssignment;
#define QDPLL_ASSIGNMENT_FALSE -1
#define QDPLL_ASSIGNMENT_UNDEF 0
#define QDPLL_ASSIGNMENT_TRUE 1

/* ---- A solver ---- */

/* A solver without scopes and clauses; NULL for want of memory. */
QDPLL *qdpll_create(void);

/* Frees it. */
void qdpll_delete(QDPLL *qdpll);

/* Takes an option. NULL where it is accepted, which each is that begins with two dashes, but for those that set a limit
 * (`--max-`). None has an effect. */
char *qdpll_configure(QDPLL *qdpll, char *option);

/* Makes room for variables up to this number. */
void qdpll_adjust_vars(QDPLL *qdpll, VarID greatest);

/* ---- The prefix ---- */

/* Opens a new scope behind all others, or as that of the given nesting, and answers its nesting. Variables are put into
 * it by qdpll_add, up to the number 0, which closes it. */
Nesting qdpll_new_scope(QDPLL *qdpll, QDPLLQuantifierType type);
Nesting qdpll_new_scope_at_nesting(QDPLL *qdpll, QDPLLQuantifierType type, Nesting nesting);

/* Puts a variable into a scope. */
void qdpll_add_var_to_scope(QDPLL *qdpll, VarID var, Nesting nesting);

/* The nesting of the last scope, 0 where there is none. */
Nesting qdpll_get_max_scope_nesting(QDPLL *qdpll);

/* The quantifier of a scope; QDPLL_QTYPE_UNDEF where there is none of that nesting. */
QDPLLQuantifierType qdpll_get_scope_type(QDPLL *qdpll, Nesting nesting);

/* The greatest variable that is declared or free, 0 where there is none. */
VarID qdpll_get_max_declared_var_id(QDPLL *qdpll);

/* Whether a variable is declared or free. */
int qdpll_is_var_declared(QDPLL *qdpll, VarID var);

/* The nesting of such a variable. */
Nesting qdpll_get_nesting_of_var(QDPLL *qdpll, VarID var);

/* Takes the variables out that no clause has, and then the empty scopes. What was learned is lost. */
void qdpll_gc(QDPLL *qdpll);

/* Aborts: it is deprecated. */
int qdpll_has_var_active_occs(QDPLL *qdpll, VarID var);

/* ---- Clauses, frames and groups ---- */

/* Adds a number to the open scope, or else to the clause that is being added; 0 closes it. */
void qdpll_add(QDPLL *qdpll, LitID id);

/* Opens a frame, and answers how many are open then. */
unsigned int qdpll_push(QDPLL *qdpll);

/* Drops the last frame with its clauses, and answers how many were open before: 0 where there was none. */
unsigned int qdpll_pop(QDPLL *qdpll);

/* Groups of clauses. A solver takes calls of frames or of groups, not both. */
ClauseGroupID qdpll_new_clause_group(QDPLL *qdpll);
void qdpll_delete_clause_group(QDPLL *qdpll, ClauseGroupID group);
void qdpll_open_clause_group(QDPLL *qdpll, ClauseGroupID group);
void qdpll_close_clause_group(QDPLL *qdpll, ClauseGroupID group);
ClauseGroupID qdpll_get_open_clause_group(QDPLL *qdpll);
int qdpll_exists_clause_group(QDPLL *qdpll, ClauseGroupID group);
void qdpll_activate_clause_group(QDPLL *qdpll, ClauseGroupID group);
void qdpll_deactivate_clause_group(QDPLL *qdpll, ClauseGroupID group);

/* ---- Solving ---- */

/* Assumes a literal of the first block for the next qdpll_sat. */
void qdpll_assume(QDPLL *qdpll, LitID id);

/* Decides the formula under the assumptions, which are then taken back. */
QDPLLResult qdpll_sat(QDPLL *qdpll);

/* Forgets the assumptions and the result. Clauses, and what was learned, stay. */
void qdpll_reset(QDPLL *qdpll);

/* Forgets what was learned. */
void qdpll_reset_learned_constraints(QDPLL *qdpll);

/* ---- Questions about the last result ---- */

/* The value of a variable of the first block, where this is existential and the formula true, or universal and the
 * formula false; else QDPLL_ASSIGNMENT_UNDEF. */
QDPLLAssignment qdpll_get_value(QDPLL *qdpll, VarID var);

/* The literals that may be assumed: a positive one for each existential variable, or a negative one for each universal
 * variable, of the first block. 0 ends the list, which the caller frees. */
LitID *qdpll_get_assumption_candidates(QDPLL *qdpll);

/* The assumptions that the result needs; and the groups of a minimal core of a false formula. 0 ends each list, which
 * the caller frees. */
LitID *qdpll_get_relevant_assumptions(QDPLL *qdpll);
ClauseGroupID *qdpll_get_relevant_clause_groups(QDPLL *qdpll);

/* ---- Output ---- */

/* Writes the formula as QDIMACS. */
void qdpll_print(QDPLL *qdpll, FILE *out);

/* Writes the result on the standard output, with the values of the first block, as QDIMACS 1.1 has it. */
void qdpll_print_qdimacs_output(QDPLL *qdpll);

/* ---- Dependencies: those of the prefix's order ---- */

/* Do nothing. */
void qdpll_init_deps(QDPLL *qdpll);
void qdpll_reset_deps(QDPLL *qdpll);

/* Whether the second variable depends on the first: its scope comes later, and has the other quantifier. */
int qdpll_var_depends(QDPLL *qdpll, VarID first, VarID second);

/* Writes the variables that depend on this one, and 0, on the standard output. */
void qdpll_print_deps(QDPLL *qdpll, VarID var);

/* Aborts: there is no dependency graph. */
void qdpll_dump_dep_graph(QDPLL *qdpll);

/* ---- Statistics: there are none, and these do nothing ---- */

void qdpll_print_stats(QDPLL *qdpll);
void qdpll_reset_stats(QDPLL *qdpll);

#ifdef __cplusplus
}
#endif
#endif
