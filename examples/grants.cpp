// An arbiter for three clients, as in grants.c, for C++: the handle in a class, and codes as exceptions.
// docs/C.md reads it. g++ grants.cpp -lqbf
#include <qbf.h>

#include <array>
#include <initializer_list>
#include <iostream>
#include <limits>
#include <sstream>
#include <stdexcept>
#include <string>
#include <vector>

class Solver {
  public:
    Solver() { must(qbf_new(&handle)); }
    ~Solver() { qbf_free(&handle); }
    Solver(const Solver &) = delete;
    Solver &operator=(const Solver &) = delete;

    void scope(bool forall, std::initializer_list<uint64_t> variables) {
        uint64_t scopes = 0;
        must(qbf_scope(&handle, forall, 0));
        must(qbf_scopes(&handle, &scopes));
        for (uint64_t variable : variables) must(qbf_var(&handle, variable, scopes));
    }

    // No pointer is null, and that of an empty vector may be.
    void clause(const std::vector<int64_t> &literals) {
        static const int64_t none = 0;
        must(qbf_clause(&handle, literals.empty() ? &none : literals.data(), literals.size()));
    }

    void push() { must(qbf_push(&handle)); }
    void pop() { must(qbf_pop(&handle)); }

    bool solve() {
        uint64_t spent = 0;
        uint32_t code = qbf_solve(&handle, std::numeric_limits<uint64_t>::max(), &spent);
        if (code != QBF_TRUE && code != QBF_FALSE) throw std::runtime_error("no verdict");
        return code == QBF_TRUE;
    }

    std::string certificate() {
        std::string text(1, ' ');
        size_t count = 0;
        uint32_t code;
        while ((code = qbf_certificate(&handle, false, true, reinterpret_cast<uint8_t *>(&text[0]), text.size(),
                                       &count)) == QBF_SHORT)
            text.resize(count);
        must(code);
        text.resize(count);
        return text;
    }

  private:
    qbf handle = QBF_NONE;

    static void must(uint32_t code) {
        if (code != QBF_OK) throw std::runtime_error("refused with " + std::to_string(code));
    }
};

// The outputs of a circuit in AIGER for these inputs.
static std::vector<bool> evaluate(const std::string &circuit, const std::array<bool, 3> &inputs) {
    std::istringstream text(circuit);
    std::string form;
    size_t greatest, input_count, latches, output_count, gates, literal, left, right;
    text >> form >> greatest >> input_count >> latches >> output_count >> gates;
    std::vector<bool> wires(greatest + 1), values;
    std::vector<size_t> outputs(output_count);
    auto value = [&wires](size_t edge) { return wires[edge / 2] != (edge % 2 == 1); };
    for (size_t i = 0; i < input_count; i++) {
        text >> literal;
        wires[literal / 2] = inputs.at(i);
    }
    for (size_t &output : outputs) text >> output;
    for (size_t i = 0; i < gates; i++) {
        text >> literal >> left >> right;
        wires[literal / 2] = value(left) && value(right);
    }
    for (size_t output : outputs) values.push_back(value(output));
    return values;
}

static void demand(Solver &solver, const std::string &text, const std::vector<int64_t> &clause) {
    solver.push();
    solver.clause(clause);
    bool met = solver.solve();
    if (!met) solver.pop();
    std::cout << text << ": " << (met ? "yes" : "no") << "\n";
}

int main() {
    Solver solver;
    solver.scope(true, {1, 2, 3});
    solver.scope(false, {4, 5, 6});
    for (int64_t client = 1; client <= 3; client++) {
        solver.clause({client, -(client + 3)});
        solver.clause({-client, 4, 5, 6});
        solver.clause({-(client + 3), -(client % 3 + 4)});
    }
    std::cout << "an arbiter: " << (solver.solve() ? "yes" : "no") << "\n";
    demand(solver, "client 1 at once", {-1, 4});
    demand(solver, "client 2 at once", {-2, 5});
    demand(solver, "client 2 unless client 1 requests", {-2, 1, 5});
    solver.solve();
    const std::string circuit = solver.certificate();
    for (int row = 0; row < 8; row++) {
        const std::array<bool, 3> inputs{(row & 4) != 0, (row & 2) != 0, (row & 1) != 0};
        std::cout << inputs[0] << " " << inputs[1] << " " << inputs[2] << " ->";
        for (bool output : evaluate(circuit, inputs)) std::cout << " " << output;
        std::cout << "\n";
    }
}
