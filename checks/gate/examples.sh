#!/bin/sh
# Runs what the pages for users show, and compares with what they say: README, examples/README.md, docs/EXAMPLES.md,
# docs/SCRIPTS.md and docs/CERTIFICATES.md. The files of examples/ are to be those of the pages, letter by letter, and
# docs/LIBRARY.md quotes the crate example_engine. docs/ARCHITECTURE.md has the groups and crates of crates.txt. The
# clauses that pages name in brackets are to be in the contracts.
# Usage: checks/gate/examples.sh PROGRAM. Prints a line a case, and ends with status 1 if one failed.
# This needs Python 3. What needs abc (berkeley-abc), iverilog or aigtoaig is left out without it, and a line says so.
set -u

if [ $# -ne 1 ]; then
    echo "usage: $0 PROGRAM" >&2
    exit 2
fi
program=$(realpath "$1") || exit 2
root=$(cd "$(dirname "$0")/../.." && pwd) || exit 2
examples=$root/examples
tools=$root/tools
folder=$(mktemp -d) || exit 2
trap 'rm -rf "$folder"' EXIT
failures=0
export PYTHONDONTWRITEBYTECODE=1

# report NAME GOT WANTED [GOT WANTED]..
report() {
    name=$1
    shift
    while [ $# -ge 2 ]; do
        if [ "$1" != "$2" ]; then
            echo "FAILED $name: got '$1' and not '$2'"
            failures=1
            return
        fi
        shift 2
    done
    echo "ok $name"
}

# has TOOL: whether a command is installed.
has() {
    command -v "$1" > /dev/null
}

# without TOOL WHAT: says what isn't tried.
without() {
    echo "no $1: $2 isn't tried"
}

# block PAGE HEADING N: the N-th indented block of a section.
block() {
    awk -v heading="$2" -v wanted="$3" '
        /^#/ { sub(/^#+ /, ""); inside = $0 == heading; count = 0; open = 0; next }
        !/^    / { open = 0; next }
        inside { count += !open; open = 1; if (count == wanted) print substr($0, 5) }' "$root/$1"
}

# quoted PAGE HEADING: all that is indented in a section, with the subsections, without empty lines.
quoted() {
    awk -v heading="$2" '
        /^## / { inside = substr($0, 4) == heading; next }
        inside && /^    / { print substr($0, 5) }' "$root/$1"
}

# A section quotes files whole, piece by piece: page_file NAME PAGE HEADING FILE..
page_file() {
    name=$1
    page=$2
    heading=$3
    shift 3
    report "$name" "$(quoted "$page" "$heading")" "$(cd "$root" && cat "$@" | grep .)"
}

# first_column PAGE HEADING: the pieces of code in the first column of a section's table, a line each.
first_column() {
    awk -F '|' -v heading="$2" '
        /^#/ { sub(/^#+ /, ""); inside = $0 == heading; next }
        inside && $2 ~ /`/ { count = split($2, pieces, "`"); for (i = 2; i <= count; i += 2) print pieces[i] }' \
        "$root/$1"
}

# A formula of a page is the file: page_formula FILE PAGE HEADING N.
page_formula() {
    report "$1" "$(block "$2" "$3" "$4")" "$(cat "$examples/$1.qdimacs")"
}

# A session of a page is the script and its replies, and these are the program's: page_script FILE HEADING N [OPTION]..
# Commands stand on the left, their replies in the column 25.
page_script() {
    file=$examples/$1
    name=$1
    block docs/SCRIPTS.md "$2" "$3" > "$folder/session"
    shift 3
    got=$("$program" script "$@" "$file.qscript")
    report "script_$name" $? 0 "$got" "$(cat "$file.out")" \
        "$(cut -c 1-24 "$folder/session" | sed 's/ *$//' | grep .)" "$(cat "$file.qscript")" \
        "$(cut -c 25- "$folder/session" | grep .)" "$got"
}

# refused NUMBER LINE TEXT: a script that is malformed there.
refused() {
    got=$(printf "$3" | "$program" script 2>&1)
    report "script_refused_$1" $? 2 "$got" "qbf: line $2: refused $1"
}

# assigned MODULE: its assignments, a line each, without blanks in front.
assigned() {
    sed -n 's/^ *assign /assign /p' "$1"
}

# README: its first formula, on which the stored run of the program is made too, and a script of a few commands.
page_formula differs README.md 'The first minute' 1
report stored_run "$(cat "$root/crates/qbf_cli/stdin")" "$(cat "$examples/differs.qdimacs")"
got=$(printf 'p qscript 1\nscope e\nvar 1 1\nclause -1 0\nsolve\nvalue 1\n' | "$program" script)
report readme_script $? 0 "$got" "SAT
value -1"

# Each formula of the table in examples/README.md, and no other file.
formulas=$(sed -n 's/^| `\([a-z_]*\)\.qdimacs` | \([A-Z]*\) .*/\1 \2/p' "$examples/README.md")
report formulas "$(echo "$formulas" | cut -d ' ' -f 1 | sort)" \
    "$(cd "$examples" && ls ./*.qdimacs | sed 's/^\.\/\(.*\)\.qdimacs$/\1/' | sort)"
while read -r name answer; do
    got=$("$program" solve "$examples/$name.qdimacs")
    report "solve_$name" $? "$([ "$answer" = SAT ] && echo 10 || echo 20)" "$got" "$answer"
done <<END
$formulas
END

# docs/EXAMPLES.md.
page_formula gate docs/EXAMPLES.md 'A synthesis question' 1
page_formula first_input_gate docs/EXAMPLES.md 'A synthesis question' 2
page_formula lamp docs/EXAMPLES.md 'A planning question' 1
page_formula counter_three_steps docs/EXAMPLES.md 'A model-checking question' 1
page_formula counter_two_steps docs/EXAMPLES.md 'A model-checking question' 2
report lamp_seen "$(sort "$examples/lamp_seen.qdimacs")" "$(sort "$examples/lamp.qdimacs")" \
    "$(sed -n '2,3p' "$examples/lamp_seen.qdimacs")" "a 2 0
e 1 0"
"$program" cert "$examples/gate.qdimacs" > "$folder/gate.aag"
report cert_gate $? 10 "$(sed -n '4,7p' "$folder/gate.aag" | tr '\n' ' ')" '0 1 1 0 ' \
    "$(tail -1 "$folder/gate.aag")" skolem
"$program" cert "$examples/first_input_gate.qdimacs" > "$folder/first.aag"
report cert_first_input_gate $? 20 "$(tail -1 "$folder/first.aag")" herbrand
got=$("$program" solve --budget 0 "$examples/gate.qdimacs")
report no_budget $? 0 "$got" UNKNOWN
got=$("$program" solve --budget 16384 "$examples/gate.qdimacs")
report enough_budget $? 10 "$got" SAT

# docs/SCRIPTS.md.
page_script differs Scripts 1
page_script no_step Verdicts 1 --budget 0
page_script assumptions Verdicts 2
page_script gate 'A synthesis session' 1
page_script plan 'A planning session' 1
page_script horizon 'A planning session in version 2' 1
page_script counter 'A model-checking session' 1
page_script conflict 'A specification in conflict' 1
refused 7 2 'p qscript 1\nsolve\001\n'
refused 8 3 'p qscript 1\nscope e\nvar 9223372036854775808 1\n'
refused 30 1 'p qscript 4\n'
refused 31 2 'p qscript 1\n1 2 0\n'
refused 32 2 'p qscript 1\nclause x \001\n'

# docs/CERTIFICATES.md: a trace, and circuits with their modules.
got=$("$program" trace "$examples/core.qdimacs")
report trace $? 20 "$got" "$(cat "$examples/core.trace")" \
    "$got" "$(block docs/CERTIFICATES.md 'A trace' 1)"
got=$("$program" cert "$examples/conjunction.qdimacs")
report conjunction $? 10 "$got" "$(cat "$examples/conjunction.aag")" \
    "$got" "$(first_column docs/CERTIFICATES.md 'A circuit')"
page_formula arbiter docs/CERTIFICATES.md 'The question' 1
got=$("$program" cert "$examples/arbiter.qdimacs")
report arbiter_text $? 10 "$got" "$(cat "$examples/arbiter.aag")" \
    "$got" "$(first_column docs/CERTIFICATES.md 'The text')"
report arbiter_module "$(cat "$examples/arbiter.v")" "$(block docs/CERTIFICATES.md 'The text' 1)" \
    "$(python3 "$tools/verilog.py" "$examples/arbiter.aag" "$examples/arbiter.qdimacs")" \
    "$(cat "$examples/arbiter.v")"
report wrong_module "$(cat "$examples/wrong.v")" "$(block docs/CERTIFICATES.md 'The check' 1)"
got=$("$program" cert "$examples/arbiter_in_turn.qdimacs")
report arbiter_in_turn $? 10 "$(echo "$got" | sed -n 5p)" 2
"$program" cert "$examples/early_grant.qdimacs" > "$folder/surroundings.aag"
report early_grant $? 20 "$(cat "$folder/surroundings.aag")" "$(cat "$examples/early_grant.aag")" \
    "$(cat "$examples/early_grant.aag")" "$(block docs/CERTIFICATES.md 'A circuit against each design' 1)"
echo 'c names r1 r2 r3 g1 g2 g3' > "$folder/names"
python3 "$tools/verilog.py" "$folder/surroundings.aag" "$folder/names" > "$folder/surroundings.v"
report surroundings "$(cat "$examples/surroundings.v")" \
    "$(block docs/CERTIFICATES.md 'A circuit against each design' 2)" \
    "$(assigned "$folder/surroundings.v")" "$(assigned "$examples/surroundings.v")"
got=$("$program" trace "$examples/early_grant.qdimacs" | sed -n 's/^[0-9]* \(.*\) 0 0$/\1/p')
report early_grant_inputs "$got" "1 -4
2 -5
3 -6
-1 4 5 6"
if has berkeley-abc; then
    cat "$examples/wrong.v" "$examples/arbiter.v" > "$folder/both.v"
    sed 's/= n14 & ~r1/= n14/' "$folder/both.v" > "$folder/bad.v"
    got=$(cd "$folder" && berkeley-abc -c "read_verilog both.v; strash; sat" | grep -o '[UN]*SATISFIABLE')
    report abc_arbiter "$got" UNSATISFIABLE
    got=$(cd "$folder" && berkeley-abc -c "read_verilog bad.v; strash; sat; write_cex -n cex" |
        grep -o '[UN]*SATISFIABLE')
    report abc_wrong_arbiter "$got" SATISFIABLE \
        "$(tr -s ' \n' '  ' < "$folder/cex" | sed 's/# DONE//;s/ *$//')" 'r1=1 r2=0 r3=1'
else
    without berkeley-abc "the arbiter's module"
fi
python3 "$examples/binary.py" "$examples/arbiter.aag" > "$folder/arbiter.aig"
report binary $? 0 "$(head -1 "$folder/arbiter.aig")" 'aig 8 3 0 3 5' \
    "$(tail -n +5 "$folder/arbiter.aig" | head -c 10 | od -An -tu1 | tr -s ' ')" ' 3 2 2 1 8 1 8 1 2 11'
"$program" cert --binary "$examples/arbiter.qdimacs" > "$folder/written.aig"
report binary_form $? 10 "$(od -An -tx1 "$folder/written.aig")" "$(od -An -tx1 "$folder/arbiter.aig")"
# equivalent TEXT MODULE: what abc says of a circuit in binary form and a module.
equivalent() {
    (cd "$folder" && berkeley-abc -q "cec -n $1 $2" | grep -o 'Networks are [NOT ]*[Ee][A-Za-z]*')
}
sed 's/= n14 & ~r1/= n14/' "$examples/arbiter.v" > "$folder/other.v"
if has berkeley-abc; then
    report abc_same "$(equivalent arbiter.aig "$examples/arbiter.v")" 'Networks are equivalent' \
        "$(equivalent arbiter.aig other.v)" 'Networks are NOT EQUIVALENT'
else
    without berkeley-abc "that abc finds the arbiter's text and module equivalent"
fi
if has berkeley-abc && has aigtoaig; then
    aigtoaig "$examples/arbiter.aag" "$folder/converted.aig"
    report abc_converted "$(equivalent converted.aig "$examples/arbiter.v")" 'Networks are equivalent'
else
    without aigtoaig "that abc finds what it makes of the arbiter's text equivalent"
fi

# docs/ARCHITECTURE.md: the groups and the crates of crates.txt, in that order.
report architecture_crates \
    "$(sed -n 's/^### \([a-z]*\)$/# \1/p; s/^| `\([a-z_]*\)` | .*/\1/p' "$root/docs/ARCHITECTURE.md")" \
    "$(sed -n 's/^# \([a-z]*\): .*/# \1/p; s/^\([a-z_]*\)\( staticlib\)\{0,1\}:.*/\1/p' "$root/crates.txt")"

# docs/LIBRARY.md: the crate's definitions and its code, and the line in crates.txt.
page_file library_answers docs/LIBRARY.md 'What is an answer' crates/example_engine/specs/Answers.antt
page_file library_decided docs/LIBRARY.md 'A formula decided' crates/example_engine/src/answer.rt
page_file library_built docs/LIBRARY.md 'A formula built' crates/example_engine/specs/Differing.antt \
    crates/example_engine/src/differ.rt
report library_line "$(block docs/LIBRARY.md 'The line in crates.txt' 1)" \
    "$(grep '^example_engine:' "$root/crates.txt")"

# The clauses that pages name, and one that isn't there.
printf '**`program`**: a crate\n\n- `run`: a claim [`steady`, `planted`].\n' > "$folder/planted.md"
report clauses "$(python3 "$root/checks/gate/clauses.py" 2>&1)" '' \
    "$(python3 "$root/checks/gate/clauses.py" "$folder/planted.md")" 'planted.md: no clause planted of run'

# The version: that of README, of the manual page and of the first heading of CHANGELOG are one.
version=$(sed -n 's/^## \([0-9.]*\) .*/\1/p' "$root/CHANGELOG.md" | head -1)
report version "$(sed -n 's/^This is version \([0-9.]*[0-9]\)\. .*/\1/p' "$root/README.md")" "$version" \
    "$(sed -n 's/^\.Os "qbf \(.*\)"$/\1/p' "$root/man/qbf.1")" "$version"

# The arbiter by a table, and a simulation that is to fail: one assignment has an input in the place of its negation.
printf '.i 3\n.o 3\n.type fr\n.ilb r1 r2 r3\n.ob g1 g2 g3\n1-- 100\n01- 010\n001 001\n000 000\n' > "$folder/arbiter.pla"
python3 "$tools/simulate.py" "$folder/arbiter.pla" "$examples/arbiter.v" > "$folder/out"
report simulated $? 0 "$(tail -1 "$folder/out")" '8 inputs tried, 0 outputs wrong'
sed 's/= r2 & ~r1/= r2 \& r1/' "$examples/arbiter.v" > "$folder/negated.v"
python3 "$tools/simulate.py" "$folder/arbiter.pla" "$folder/negated.v" > "$folder/out"
report simulated_wrong $? 1 "$(tail -1 "$folder/out")" '8 inputs tried, 4 outputs wrong'

# examples/README.md, block by block: the lines with $ are commands, run from a folder as the repository's. After a
# minute a dialogue with a program that does not reply is ended.
mkdir "$folder/walk" "$folder/walk/bin"
ln -s "$program" "$folder/walk/bin/qbf"
ln -s "$examples" "$folder/walk/examples"
ln -s "$tools" "$folder/walk/tools"
sections=$(sed -n 's/^## //p' "$examples/README.md")
while read -r section; do
    number=1
    while block examples/README.md "$section" $number > "$folder/block" && [ -s "$folder/block" ]; do
        name=walk_$(echo "$section" | tr 'A-Z ' 'a-z_')_$number
        number=$((number + 1))
        sed -n 's/^\$ //p' "$folder/block" > "$folder/commands"
        tool=$(grep -o 'berkeley-abc\|iverilog' "$folder/commands" | sed -n 1p)
        if [ -n "$tool" ] && ! has "$tool"; then
            without "$tool" "$name"
        else
            got=$(cd "$folder/walk" && timeout 60 sh ../commands < /dev/null 2>&1)
            report "$name" "$got" "$(sed '/^\$ /d' "$folder/block")"
        fi
    done
done <<END
$sections
END

exit $failures
