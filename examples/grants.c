/* An arbiter for three clients: a formula, demands that are tried one by one, and a circuit that is evaluated.
 * docs/C.md reads it. gcc grants.c -lqbf */
#include <qbf.h>

#include <stdio.h>
#include <stdlib.h>

/* The code of a call that is to be accepted. */
static void must(uint32_t code) {
    if (code != QBF_OK) {
        fprintf(stderr, "refused with %u\n", (unsigned)code);
        exit(1);
    }
}

static bool is_true(qbf *q) {
    uint64_t spent;
    uint32_t code = qbf_solve(q, UINT64_MAX, &spent);
    if (code != QBF_TRUE && code != QBF_FALSE) must(code ? code : QBF_SPENT);
    return code == QBF_TRUE;
}

/* For all requests 1 to 3 there are grants 4 to 6: at most one, only of a request, and one where there is a request. */
static void build(qbf *q) {
    must(qbf_new(q));
    must(qbf_scope(q, true, 0));
    must(qbf_scope(q, false, 0));
    for (uint64_t client = 1; client <= 3; client++) {
        must(qbf_var(q, client, 1));
        must(qbf_var(q, client + 3, 2));
    }
    for (int64_t client = 1; client <= 3; client++) {
        const int64_t only_requested[] = {client, -(client + 3)};
        const int64_t some[] = {-client, 4, 5, 6};
        const int64_t not_both[] = {-(client + 3), -(client % 3 + 4)};
        must(qbf_clause(q, only_requested, 2));
        must(qbf_clause(q, some, 4));
        must(qbf_clause(q, not_both, 2));
    }
}

/* Adds a demand in a frame of its own, and drops it where no arbiter meets it. */
static void demand(qbf *q, const char *text, const int64_t *clause, size_t length) {
    must(qbf_push(q));
    must(qbf_clause(q, clause, length));
    bool met = is_true(q);
    if (!met) must(qbf_pop(q));
    printf("%s: %s\n", text, met ? "yes" : "no");
}

/* The circuit of the last verdict in AIGER, in ASCII, as a string that the caller frees. */
static char *certificate(qbf *q) {
    size_t count = 0;
    uint8_t none;
    uint32_t code = qbf_certificate(q, false, true, &none, 0, &count);
    if (code != QBF_SHORT) must(code);
    char *text = malloc(count + 1);
    if (!text) must(QBF_NO_MEMORY);
    must(qbf_certificate(q, false, true, (uint8_t *)text, count, &count));
    text[count] = 0;
    return text;
}

static bool value(const bool *wires, unsigned literal) { return wires[literal / 2] != (literal % 2 == 1); }

/* Reads the circuit line by line, and writes the outputs for these inputs. */
static void evaluate(const char *text, const bool inputs[3]) {
    unsigned greatest, input_count, output_count, gates, literal, left, right, outputs[3];
    int used = 0;
    sscanf(text, "aag %u %u 0 %u %u%n", &greatest, &input_count, &output_count, &gates, &used);
    bool *wires = calloc(greatest + 1, sizeof *wires);
    if (!wires || input_count != 3 || output_count != 3) exit(1);
    for (unsigned i = 0; i < input_count; i++) {
        sscanf(text += used, "%u%n", &literal, &used);
        wires[literal / 2] = inputs[i];
    }
    for (unsigned i = 0; i < output_count; i++) sscanf(text += used, "%u%n", &outputs[i], &used);
    for (unsigned i = 0; i < gates; i++) {
        sscanf(text += used, "%u %u %u%n", &literal, &left, &right, &used);
        wires[literal / 2] = value(wires, left) && value(wires, right);
    }
    for (unsigned i = 0; i < output_count; i++) printf(" %d", value(wires, outputs[i]));
    free(wires);
}

int main(void) {
    qbf q = QBF_NONE;
    build(&q);
    printf("an arbiter: %s\n", is_true(&q) ? "yes" : "no");
    demand(&q, "client 1 at once", (const int64_t[]){-1, 4}, 2);
    demand(&q, "client 2 at once", (const int64_t[]){-2, 5}, 2);
    demand(&q, "client 2 unless client 1 requests", (const int64_t[]){-2, 1, 5}, 3);
    if (!is_true(&q)) return 1;
    char *text = certificate(&q);
    for (int row = 0; row < 8; row++) {
        const bool inputs[3] = {row & 4, row & 2, row & 1};
        printf("%d %d %d ->", inputs[0], inputs[1], inputs[2]);
        evaluate(text, inputs);
        printf("\n");
    }
    free(text);
    qbf_free(&q);
    return 0;
}
