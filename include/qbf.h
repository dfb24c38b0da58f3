/* libqbf: the incremental solver of quantified Boolean formulas for C and C++.
 *
 * A handle is a variable of the caller's. All zero it holds no solver: write `qbf q = QBF_NONE;`, then `qbf_new(&q)`,
 * and at the end `qbf_free(&q)`, after which it holds none again. Each call but qbf_new, qbf_new_version, qbf_read and
 * qbf_free answers QBF_NO_ENGINE for a handle that holds none, and then does nothing.
 *
 * What the caller owes:
 *
 * - A handle is all zero, or what a call left. Its members are never read, changed or copied: `live` is 0 or 1.
 * - No pointer is NULL, also where the length beside it is 0.
 * - What a call writes to (a count, a number, a buffer) and what it reads (literals, a text) overlap with nothing else
 *   that it is given. All of a buffer and of a text that is read may be read.
 * - A handle stays on one thread at a time, and may move to another. Two handles share nothing.
 * - No call is made from a signal handler.
 *
 * The library has no state of its own, prints nothing and ends no process. It calls malloc, realloc and free.
 *
 * Where a call answers another code than QBF_OK, its solver is as it was, unless it says otherwise. What it writes to
 * is as it was too, but for the count beside a buffer that is too short: QBF_SHORT comes exactly where the buffer has
 * less room than is wanted, and then the count tells how much room would do. Of a buffer that suffices as much is
 * written as the count tells, and the rest is as it was.
 *
 * Variables and literals are numbers as in QDIMACS 1.1: 1 to 1,048,576, with a minus for a negation. Scopes are counted
 * from 1, the outermost, on.
 */
#ifndef QBF_H
#define QBF_H

#include <stdbool.h>
#include <stddef.h>
#include <stdint.h>

#ifdef __cplusplus
extern "C" {
#endif

typedef struct qbf {
    void *at;
    bool live;
} qbf;

#define QBF_NONE {0, false}

/* What calls answer. */
enum qbf_code {
    QBF_OK = 0,

    /* the prefix refuses a scope or a variable */
    QBF_VAR_TWICE = 1,   /* the variable is in the prefix already */
    QBF_VAR_RANGE = 2,   /* its number isn't 1 to 1,048,576 */
    QBF_SCOPE_RANGE = 3, /* no scope has that number, nor is it the next one where a scope is put in */
    QBF_SCOPE_LIMIT = 4, /* there are 65,536 scopes */

    /* verdicts of qbf_solve, beside 0 where the budget is spent; and of qbf_verdict */
    QBF_TRUE = 10,
    QBF_FALSE = 20,

    /* a command is refused */
    QBF_NO_FRAME = 40,         /* no pushed frame is open */
    QBF_UNKNOWN_VAR = 41,      /* a variable isn't in the prefix */
    QBF_ASSUME_SCOPE = 42,     /* the variable isn't in the first scope */
    QBF_ASSUME_CLASH = 43,     /* the negation is assumed */
    QBF_ASSUMPTIONS_HELD = 44, /* an assumption stands, so that no scope and no variable can be added */
    QBF_LIMIT = 45,            /* as many frames, clauses or literals stand as may */
    QBF_GROUP_OPEN = 46,       /* a group is open */
    QBF_GROUP_RANGE = 47,      /* its number isn't 1 to 65,536 */
    QBF_NO_GROUP = 48,         /* no group is open, or it was never opened */
    QBF_GROUP_FRAME = 49,      /* a pushed frame is open */

    /* a question about the last verdict is refused */
    QBF_NO_VERDICT = 50,    /* there is none, or a change came after it */
    QBF_NOT_OUTERMOST = 51, /* the variable isn't in the first scope */
    QBF_NOT_WINNER = 52,    /* the first scope isn't of the side that wins */
    QBF_NOT_FALSE = 53,     /* the formula is true */

    QBF_NO_MEMORY = 60,  /* there is no memory */
    QBF_NO_ENGINE = 61,  /* the handle holds no solver */
    QBF_SHORT = 62,      /* the buffer has less room than the count tells */
    QBF_SPENT = 63,      /* the budget of a trial of qbf_group_core is spent */
    QBF_VERSION = 64,    /* the version isn't 1 to 3 */
    QBF_KEPT_RANGE = 65, /* the number of rows isn't 16 to 16,777,216 */

    /* qbf_read: the text is refused, by the rule of that number and 100 (docs/QDIMACS.md) */
    QBF_TEXT_BYTE = 107,      /* a byte of a word is none of 33 to 126 */
    QBF_TEXT_NUMBER = 108,    /* a number's magnitude is above 2^63 - 1 */
    QBF_TEXT_NO_HEADER = 110, /* there is no header */
    QBF_TEXT_HEADER = 111,    /* the header is malformed */
    QBF_TEXT_UNKNOWN = 112,   /* a variable isn't declared */
    QBF_TEXT_TWICE = 113,     /* a variable stands in a set already */
    QBF_TEXT_LATE_SET = 114,  /* a set comes behind a clause */
    QBF_TEXT_NO_END = 115,    /* a set or a clause hasn't its 0 */
    QBF_TEXT_TOO_FEW = 116,   /* there are fewer clauses than declared */
    QBF_TEXT_TOO_MANY = 117,  /* there are more clauses than declared */
    QBF_TEXT_WORD = 118,      /* a word doesn't belong there */

    /* a text that is read, or a check formula, goes beyond a limit */
    QBF_MANY_VARS = 120,     /* 1,048,576 variables */
    QBF_MANY_SCOPES = 121,   /* 65,536 scopes */
    QBF_MANY_CLAUSES = 122,  /* 2^24 clauses; 2^32 - 1 for qbf_write */
    QBF_MANY_LITERALS = 123, /* 2^28 literals */
    QBF_MANY_BYTES = 124     /* 2^30 bytes */
};

/* ---- A solver in a handle ---- */

/* Makes a solver without scopes and clauses in the handle, of version 1, and frees what this held. QBF_OK or
 * QBF_NO_MEMORY. */
uint32_t qbf_new(qbf *q);

/* The same of a version, 1 to 3: in version 1 a variable stays; from version 2 on it leaves with the frame that was on
 * top when it was added. QBF_OK, QBF_VERSION or QBF_NO_MEMORY. */
uint32_t qbf_new_version(qbf *q, uint32_t version);

/* Makes a solver of version 1 in the handle that holds the formula of a QDIMACS 1.1 text, and frees what this held.
 * A text that is none is refused with a code from QBF_TEXT_BYTE to QBF_MANY_BYTES, and `line` tells where, from 1.
 * Else QBF_OK or QBF_NO_MEMORY. */
uint32_t qbf_read(qbf *q, const uint8_t *text, size_t length, uint32_t *line);

/* Frees the solver, if there is one. */
void qbf_free(qbf *q);

/* ---- The prefix ---- */

/* Puts in a scope, of universal variables where `forall`, as number `at`, or behind all others where this is 0; scopes
 * from there on move up by one. Refused, in this order, with 44, 4, 3, and then 60. */
uint32_t qbf_scope(qbf *q, bool forall, uint64_t at);

/* Puts a variable into a scope. Refused, in this order, with 44, 2, 1, 3, and then 60. */
uint32_t qbf_var(qbf *q, uint64_t var, uint64_t scope);

/* How many scopes and variables there are. QBF_OK. */
uint32_t qbf_scopes(qbf *q, uint64_t *scopes);
uint32_t qbf_vars(qbf *q, uint64_t *vars);

/* Whether a scope's variables are universal: `forall` becomes 1, or else 0. Refused with 3. */
uint32_t qbf_is_forall(qbf *q, uint64_t scope, uint32_t *forall);

/* The scope of a variable. Refused with 41. */
uint32_t qbf_scope_of(qbf *q, uint64_t var, uint64_t *scope);

/* The variables of a scope, ascending, into a buffer with room for `length` of them. Refused, in this order, with 3,
 * 60, 62. */
uint32_t qbf_scope_vars(qbf *q, uint64_t scope, uint32_t *vars, size_t length, size_t *count);

/* ---- Clauses in frames and groups ---- */

/* Puts a clause of so many literals into the open group, or else into the top frame. A tautology is accepted and left
 * out, a repeated literal counts once. Refused, in this order, with 41, 45, and then 60. */
uint32_t qbf_clause(qbf *q, const int64_t *lits, size_t length);

/* Opens a frame. Refused, in this order, with 46, 45, and then 60. */
uint32_t qbf_push(qbf *q);

/* Drops the top frame with its clauses, the variables that leave with it, and assumptions over these. Refused with 40;
 * it takes no memory. */
uint32_t qbf_pop(qbf *q);

/* How many pushed frames are open. QBF_OK. */
uint32_t qbf_depth(qbf *q, uint64_t *depth);

/* Opens a group, which is made, active, where it is new; clauses join it until it is closed. Refused, in this order,
 * with 47, 46, 49, and then 60. */
uint32_t qbf_open_group(qbf *q, uint64_t group);

/* Closes the open group. Refused with 48. */
uint32_t qbf_close_group(qbf *q);

/* Makes a group active, so that its clauses are in the formula, or inactive. Refused, in this order, with 47, 48, 46;
 * activation then with 60. */
uint32_t qbf_activate(qbf *q, uint64_t group);
uint32_t qbf_deactivate(qbf *q, uint64_t group);

/* The formula that is open, as a text of QDIMACS 1.1, into a buffer: its header declares the greatest variable and as
 * many clauses as stand. Assumptions aren't in it. Refused with 60; with 122 where more than 2^32 - 1 clauses stand;
 * and then with 62. */
uint32_t qbf_write(qbf *q, uint8_t *bytes, size_t length, size_t *count);

/* ---- Solving ---- */

/* Assumes a literal of the first scope for the next verdict, which empties the assumptions. Refused, in this order,
 * with 41, 42, 43, and then 60. */
uint32_t qbf_assume(qbf *q, int64_t lit);

/* Takes all assumptions back. Where none stands the last verdict stays. QBF_OK; it takes no memory. */
uint32_t qbf_forget_assumptions(qbf *q);

/* Decides the formula under the assumptions in at most `budget` steps: 10 where it is true, 20 where it is false, 0
 * where the budget is spent, 60 for want of memory. `spent` tells how many steps it took, whatever it answers but 61.
 * After 0 and 60 the formula and the assumptions are as before, what was learned stays, and there is no verdict. */
uint32_t qbf_solve(qbf *q, uint64_t budget, uint64_t *spent);

/* How often a solve may begin anew: at first never. QBF_OK. */
uint32_t qbf_set_restarts(qbf *q, uint32_t restarts);

/* How many long learned rows a solve may keep, 16 to 16,777,216: at first 512. QBF_OK or QBF_KEPT_RANGE. */
uint32_t qbf_set_kept_rows(qbf *q, uint32_t rows);

/* How many long learned rows are attached. QBF_OK. */
uint32_t qbf_kept_long(qbf *q, uint64_t *rows);

/* ---- Questions about the last verdict ---- */

/* The last verdict, 10 or 20, where no change came after it. Refused with 50. */
uint32_t qbf_verdict(qbf *q);

/* The value that the verdict's proof plays for a variable of the first scope, where this is of the side that wins
 * (exists where the formula is true): `lit` becomes the variable or its negation. Refused, in this order, with 50, 51,
 * 52. */
uint32_t qbf_value(qbf *q, uint64_t var, int32_t *lit);

/* The assumptions that matter, ascending by variable: they alone give the same verdict. Refused with 50, 62. */
uint32_t qbf_relevant(qbf *q, int32_t *lits, size_t length, size_t *count);

/* The numbers, ascending, of the groups of a minimal core of a false formula. Each trial has this budget of steps.
 * Refused with 50, 53; else it may answer 60 and 63; and then 62. */
uint32_t qbf_group_core(qbf *q, uint64_t budget, uint32_t *groups, size_t length, size_t *count);

/* The circuit of the verdict's proof as AIGER 1.9, in ASCII or in the binary form, as it is or trimmed to the gates
 * from which an output is reached. Refused with 50, 60, and then 62. */
uint32_t qbf_certificate(qbf *q, bool binary, bool trimmed, uint8_t *bytes, size_t length, size_t *count);

/* The trace of that proof in the format QRP. Refused with 50, 60, and then 62. */
uint32_t qbf_trace(qbf *q, uint8_t *bytes, size_t length, size_t *count);

/* The check formula of that circuit, as it is or trimmed, as a text of QDIMACS 1.1: it is unsatisfiable exactly where
 * the circuit wins. Refused with 50; with 120, 122, 123 where it goes beyond a limit; with 60; and then with 62. */
uint32_t qbf_check_formula(qbf *q, bool trimmed, uint8_t *bytes, size_t length, size_t *count);

/* ---- The whole program ---- */

/* Runs the program on a command line (docs/COMMANDS.md), such as "cert --trim", with `input` as standard input, and
 * answers its exit status. `written` tells how many bytes of its output are in `out`, `said` how many of its standard
 * error in `err`; where the output doesn't fit, it is a write fault, status 4. No handle is wanted. */
uint32_t qbf_run(const uint8_t *line, size_t line_length, const uint8_t *input, size_t input_length, uint8_t *out,
                 size_t out_length, uint8_t *err, size_t err_length, size_t *written, size_t *said);

#ifdef __cplusplus
}
#endif
#endif
