/* Each request for memory is refused in turn: the call that makes it answers 60 and leaves all as it was, so that it is
 * right when it is made again. A solve may also do without: where no memory is left for an end row that it would keep,
 * or for a lesson that it would shorten. Linked with --wrap=malloc and --wrap=realloc.
 * usage: refused [STEP]     each STEPth request is refused, or without that word each
 * Prints how many were. */
#include "expect.h"

#include <stdlib.h>

void *__real_malloc(size_t size);
void *__real_realloc(void *old, size_t size);
void *__wrap_malloc(size_t size);
void *__wrap_realloc(void *old, size_t size);

/* How many requests are left up to the one that is refused; whether one was. */
static long left;
static int refused;

static int is_refused(void) {
    if (left == 0 || --left > 0) return 0;
    refused = 1;
    return 1;
}

void *__wrap_malloc(size_t size) { return is_refused() ? NULL : __real_malloc(size); }

void *__wrap_realloc(void *old, size_t size) { return is_refused() ? NULL : __real_realloc(old, size); }

/* How many calls answered want of memory, and how many did without. */
static long answers, without;

/* What a call came to that began with `before` refusals: want of memory where there was one since. */
static int is_wanting(int line, const char *call, int before, uint32_t code) {
    int solves = strstr(call, "qbf_solve") == call;
    if (code != QBF_NO_MEMORY && refused > before) {
        without++;
        if (!solves) expect(line, call, QBF_NO_MEMORY, code);
    }
    if (code == QBF_NO_MEMORY) {
        answers++;
        if (refused == before) expect(line, call, QBF_OK, code);
    }
    return code == QBF_NO_MEMORY;
}

/* A call that is made again where it wants memory: it answers the code then, or at once. */
#define AGAIN(code, call)                                                          \
    do {                                                                           \
        int before = refused;                                                      \
        uint32_t first = call;                                                     \
        EXPECT(code, is_wanting(__LINE__, #call, before, first) ? (call) : first); \
    } while (0)

static void build(qbf *q, uint32_t version) {
    AGAIN(QBF_OK, qbf_new_version(q, version));
    AGAIN(QBF_OK, qbf_scope(q, true, 0));
    AGAIN(QBF_OK, qbf_var(q, 1, 1));
    AGAIN(QBF_OK, qbf_scope(q, false, 0));
    AGAIN(QBF_OK, qbf_var(q, 2, 2));
    AGAIN(QBF_OK, qbf_scope(q, false, 1));
    AGAIN(QBF_OK, qbf_var(q, 3, 1));
    AGAIN(QBF_OK, CLAUSE(q, 3, 1, 2));
    AGAIN(QBF_OK, qbf_open_group(q, 7));
    AGAIN(QBF_OK, CLAUSE(q, 3, -1, -2));
    AGAIN(QBF_OK, qbf_close_group(q));
}

static void ask_false(qbf *q) {
    uint64_t spent;
    int32_t lits[4];
    uint32_t groups[4];
    size_t count = 0;
    AGAIN(QBF_OK, qbf_push(q));
    AGAIN(QBF_OK, CLAUSE(q, 2));
    AGAIN(QBF_OK, qbf_assume(q, -3));
    AGAIN(QBF_FALSE, qbf_solve(q, 1000, &spent));
    AGAIN(QBF_OK, qbf_relevant(q, lits, 4, &count));
    HOLDS(count == 1 && lits[0] == -3);
    AGAIN(QBF_OK, qbf_group_core(q, 1000, groups, 4, &count));
    HOLDS(count == 1 && groups[0] == 7);
    AGAIN(QBF_OK, qbf_pop(q));
}

static void ask_true(qbf *q) {
    static uint8_t bytes[4000];
    uint64_t spent;
    int32_t lit = 0;
    uint32_t vars[4];
    size_t count;
    AGAIN(QBF_OK, qbf_scope_vars(q, 1, vars, 4, &count));
    HOLDS(count == 1 && vars[0] == 3);
    AGAIN(QBF_OK, qbf_assume(q, -3));
    AGAIN(QBF_TRUE, qbf_solve(q, 1000, &spent));
    AGAIN(QBF_OK, qbf_value(q, 3, &lit));
    HOLDS(lit == -3);
    AGAIN(QBF_OK, qbf_certificate(q, false, false, bytes, sizeof bytes, &count));
    AGAIN(QBF_OK, qbf_certificate(q, true, true, bytes, sizeof bytes, &count));
    AGAIN(QBF_OK, qbf_trace(q, bytes, sizeof bytes, &count));
    AGAIN(QBF_OK, qbf_check_formula(q, true, bytes, sizeof bytes, &count));
    AGAIN(QBF_OK, qbf_write(q, bytes, sizeof bytes, &count));
    AGAIN(QBF_OK, qbf_deactivate(q, 7));
    AGAIN(QBF_OK, qbf_activate(q, 7));
    AGAIN(QBF_TRUE, qbf_solve(q, 1000, &spent));
}

static void read_text(qbf *q) {
    static const char text[] = "p cnf 2 2\na 1 0\ne 2 0\n1 2 0\n-1 -2 0\n";
    uint32_t line;
    uint64_t spent;
    AGAIN(QBF_OK, qbf_read(q, (const uint8_t *)text, strlen(text), &line));
    AGAIN(QBF_TRUE, qbf_solve(q, 1000, &spent));
}

/* The whole program, which solves too: status 5 where it wants memory. */
static void run_program(void) {
    static const char text[] = "p cnf 2 2\na 1 0\ne 2 0\n1 2 0\n-1 -2 0\n";
    uint8_t out[200], err[64];
    size_t written, said;
    uint32_t status = 5;
    for (int tries = 0, before = refused; tries < 2 && status == 5; tries++) {
        status = qbf_run((const uint8_t *)"cert", 4, (const uint8_t *)text, strlen(text), out, sizeof out, err,
                         sizeof err, &written, &said);
        answers += status == 5;
        without += status != 5 && tries == 0 && refused > before;
    }
    EXPECT(10, status);
}

int main(int count, char **words) {
    long step = count > 1 ? atol(words[1]) : 1, runs = 0;
    do {
        qbf q = QBF_NONE;
        refused = 0;
        left = 1 + step * runs;
        build(&q, 1 + (uint32_t)runs % 3);
        ask_false(&q);
        ask_true(&q);
        read_text(&q);
        run_program();
        qbf_free(&q);
        runs += refused;
    } while (refused && !wrong);
    printf("%ld requests refused: %ld answers of want of memory, %ld solves without\n", runs, answers, without);
    HOLDS(answers + without == runs && runs * step > 100);
    return wrong != 0;
}
