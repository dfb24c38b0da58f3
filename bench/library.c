/* What bench/library.py measures of the library from C.
 * usage: library clauses | library refused | library steps BUDGET < FORMULA
 * Prints seconds of the processor, or of a refused call nanoseconds; of steps also how many were taken. */
#include "qbf.h"

#include <stdio.h>
#include <stdlib.h>
#include <string.h>
#include <time.h>

enum { CLAUSES = 100000, VARS = 50000, CALLS = 20000000 };

static double now(void) { return (double)clock() / CLOCKS_PER_SEC; }

static void must(uint32_t code) {
    if (code != QBF_OK) {
        fprintf(stderr, "refused with %u\n", (unsigned)code);
        exit(1);
    }
}

/* 100,000 ternary clauses over 50,000 variables. */
static void clauses(void) {
    qbf q = QBF_NONE;
    must(qbf_new(&q));
    must(qbf_scope(&q, false, 0));
    for (uint64_t var = 1; var <= VARS; var++) must(qbf_var(&q, var, 1));
    double began = now();
    for (uint64_t i = 0; i < CLAUSES; i++) {
        const int64_t a = (int64_t)(i * 7 % VARS) + 1, b = (int64_t)(i * 13 % VARS) + 1, c = (int64_t)(i * 29 % VARS) + 1;
        const int64_t lits[] = {a, -b, c};
        must(qbf_clause(&q, lits, 3));
    }
    printf("%.4f\n", now() - began);
    qbf_free(&q);
}

/* A call that is refused: a variable that isn't there is assumed. */
static void refused(void) {
    qbf q = QBF_NONE;
    must(qbf_new(&q));
    double began = now();
    for (long i = 0; i < CALLS; i++)
        if (qbf_assume(&q, 1) != QBF_UNKNOWN_VAR) exit(1);
    printf("%.2f\n", (now() - began) / CALLS * 1e9);
    qbf_free(&q);
}

static void steps(uint64_t budget) {
    static uint8_t text[1 << 24];
    size_t length = fread(text, 1, sizeof text, stdin);
    qbf q = QBF_NONE;
    uint32_t line;
    uint64_t spent = 0;
    double began = now();
    must(qbf_read(&q, text, length, &line));
    uint32_t code = qbf_solve(&q, budget, &spent);
    printf("%.3f %lu %u\n", now() - began, (unsigned long)spent, (unsigned)code);
    qbf_free(&q);
}

int main(int count, char **words) {
    if (count == 2 && !strcmp(words[1], "clauses")) clauses();
    else if (count == 2 && !strcmp(words[1], "refused")) refused();
    else if (count == 3 && !strcmp(words[1], "steps")) steps(strtoull(words[2], NULL, 10));
    else return 2;
    return 0;
}
