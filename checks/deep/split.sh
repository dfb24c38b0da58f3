#!/bin/sh
# Splits formulas by tools/split, runs the parts by tools/part, and compares what tools/join makes of them with the
# built program's own answer to the whole: 100 drawn formulas, and parts that answer UNKNOWN, fail or aren't there.
# Usage: checks/deep/split.sh PROGRAM. Prints a line a case, and ends with status 1 if one failed. JOBS in the
# environment is how many parts run at a time, 1 without it. Without GNU parallel its case is left out, and a line says
# so.
set -u

if [ $# -ne 1 ]; then
    echo "usage: $0 PROGRAM" >&2
    exit 2
fi
program=$1
checks=$(dirname "$0")
tools=$checks/../../tools
folder=$(mktemp -d) || exit 2
trap 'rm -rf "$folder"' EXIT
failures=0

# report NAME GOT WANTED [GOT WANTED]..: what a case came to, with what is wanted of it.
report() {
    name=$1
    shift
    while [ $# -ge 2 ]; do
        if [ "$1" != "$2" ]; then
            echo "FAILED $name: got '$1' and not '$2'"
            failures=1
            return
        fi
        shift 2
    done
    echo "ok $name"
}

# run PARTS [OPTION]..: every part of a folder, with these options of the program.
run() {
    parts=$1
    shift
    printf '%s\n' "$parts"/*.qscript | xargs -P "${JOBS:-1}" -I PART "$tools/part" PART "$program" "$@"
}

# join PARTS [OPTION]: what is said of the parts, with its status.
join() {
    "$tools/join" "$@" 2> "$folder/err"
    echo $?
}

# A hundred drawn formulas: the same answer as that to the whole. Each has a file with the words for tools/split.
python3 -B "$checks/split_formulas.py" write "$folder" || exit 2
for words in "$folder"/drawn_*.words; do
    formula=${words%.words}
    # shellcheck disable=SC2046 # The words are to be several, or none.
    "$tools/split" $(cat "$words") "$formula.qdimacs" "$formula" && run "$formula"
    "$program" solve "$formula.qdimacs" > "$formula.whole"
    whole=$?
    "$tools/join" $(grep -o -e --cert "$words") "$formula" > "$formula.joined" 2> "$folder/err"
    report "drawn_${formula##*_}" $? $whole
done

# What was joined is the whole's verdict, or a circuit that wins the whole by the rules of checks/gate/rules.py.
# Formulas of each kind were drawn.
python3 -B "$checks/split_formulas.py" check "$folder" || failures=1

# Formulas by hand: existential, true with 1 false alone; existential, false in all parts; universal, true in all.
printf 'p cnf 2 1\ne 1 2 0\n-1 0\n' > "$folder/either.qdimacs"
printf 'p cnf 2 4\ne 1 2 0\n1 2 0\n1 -2 0\n-1 2 0\n-1 -2 0\n' > "$folder/neither.qdimacs"
printf 'p cnf 2 2\na 1 0\ne 2 0\n1 2 0\n-1 -2 0\n' > "$folder/each.qdimacs"
for formula in either neither each; do
    "$tools/split" --over 1 "$folder/$formula.qdimacs" "$folder/$formula" && run "$folder/$formula"
done
unknown=$(printf 'UNKNOWN\n0')
report some_part_decides "$(join "$folder/either")" "$(printf 'SAT\n10')"
report no_part_is_true "$(join "$folder/neither")" "$(printf 'UNSAT\n20')"
report each_part_is_true "$(join "$folder/each")" "$(printf 'SAT\n10')"

# A full device takes nothing.
"$tools/join" "$folder/each" > /dev/full 2> "$folder/err"
report full_device $? 4 "$(cat "$folder/err")" "join: write fault"

# Without a step no part decides; where another one does, that is enough, and where it doesn't, nothing is known.
for formula in either neither; do
    run "$folder/$formula" --budget 0
    report "no_budget_$formula" "$(join "$folder/$formula")" "$unknown" "$(cat "$folder/err")" ''
    "$tools/part" "$folder/$formula/part-1.qscript" "$program"
done
report unknown_and_decided "$(join "$folder/either")" "$(printf 'SAT\n10')"
report unknown_and_not_decided "$(join "$folder/neither")" "$unknown"

# A part whose file is missing fails. It is named where no other part decides.
rm "$folder/either/part-0.qscript" "$folder/neither/part-0.qscript"
for formula in either neither; do
    "$tools/part" "$folder/$formula/part-0.qscript" "$program"
    report "missing_part_of_$formula" $? 2
done
report failed_and_decided "$(join "$folder/either")" "$(printf 'SAT\n10')" "$(cat "$folder/err")" ''
report failed_and_not_decided "$(join "$folder/neither")" "$(printf 'UNKNOWN\n1')" \
    "$(cat "$folder/err")" "join: $folder/neither/part-0 failed: status 3: qbf: read fault"

# A part that was stopped has no status.
rm "$folder/each/part-1.status"
report stopped_part "$(join "$folder/each")" "$(printf 'UNKNOWN\n1')" \
    "$(cat "$folder/err")" "join: $folder/each/part-1 failed: it wasn't run to its end"

# A circuit that was cut is no answer.
"$tools/split" --cert --over 1 "$folder/either.qdimacs" "$folder/cut" && run "$folder/cut"
report whole_circuit "$(join --cert "$folder/cut" | sed -n '1p;$p')" "$(printf 'aag 0 0 0 2 0\n10')"
sed '$d' "$folder/cut/part-1.out" > "$folder/text" && cp "$folder/text" "$folder/cut/part-1.out"
report cut_circuit "$(join --cert "$folder/cut")" "$(printf 'UNKNOWN\n1')"

# Free variables are the first scope; a part of its own is the whole; a formula without variables has that part alone.
printf 'p cnf 3 2\na 2 0\ne 1 0\n3 2 1 0\n-3 0\n' > "$folder/free.qdimacs"
"$tools/split" --over 3 "$folder/free.qdimacs" "$folder/free" && run "$folder/free"
report free_variable "$(join "$folder/free")" "$(printf 'SAT\n10')"
printf 'p cnf 0 1\n0\n' > "$folder/empty.qdimacs"
"$tools/split" --cert --most 0 "$folder/empty.qdimacs" "$folder/empty" && run "$folder/empty"
report one_part "$(join "$folder/empty")" "$(printf 'UNSAT\n20')"
report circuit_of_one_part "$(join --cert "$folder/empty")" "$(printf 'aag 0 0 0 0 0\nc\nherbrand\n20')"

# What is refused: malformed formulas as by the program, another scope's variable, too many, a folder in use. Among the
# formulas are a number of 5,000 digits, one of as many zeros and a 1, and one scope more than are read, with a literal
# behind it that is none.
nines=$(printf '%05000d' 0 | tr 0 9)
zeros=$(printf '%05000d' 0)
sets=$(awk 'BEGIN { for (v = 1; v <= 65537; v++) print v % 2 ? "e" : "a", v, 0 }')
number=0
for text in '' 'p cnf 1' 'p cnf 1\n1\n1 0\n' 'p cnf cnf 1\n' 'p cnf 1 1\n2 0\n' 'p cnf 1 1\n1 e\n' 'p cnf 1 2\n1 0\n' \
    'p cnf 2 1\ne 1 0\na 1 0\n1 0\n' 'p cnf 1 0\n1 0\n' 'p cnf 1 1\n-0\n' 'p cnf 1 1\n1 0\ne 1 0\n' \
    'p cnf 1048577 0\n\n' 'p cnf 9223372036854775808 0\n' "p cnf 1 1\n-${nines} 0\n" "p cnf ${zeros}1 1\n2 0\n" \
    "p cnf 65537 1\n$sets\nx 0\n"; do
    number=$((number + 1))
    # shellcheck disable=SC2059 # The text has line ends to be printed as such.
    printf "$text" > "$folder/text"
    wanted=$("$program" solve "$folder/text" 2>&1; echo $?)
    found=$("$tools/split" --most 0 "$folder/text" "$folder/refused" 2>&1; echo $?)
    report "refused_text_$number" "$found" "$(echo "$wanted" | sed 's/^qbf:/split:/')"
done
"$tools/split" --over 1 "$folder/missing" "$folder/refused" 2> "$folder/err"
report missing_formula $? 3
"$tools/split" --over 2 "$folder/each.qdimacs" "$folder/refused" 2> "$folder/err"
report inner_variable $? 7 "$(cat "$folder/err")" "split: 2 is no variable of the first scope"
"$tools/split" --most 2 "$folder/each.qdimacs" "$folder/refused" 2> "$folder/err"
report too_many $? 7
"$tools/split" --over 1 "$folder/each.qdimacs" "$folder/each" 2> "$folder/err"
report folder_in_use $? 4
"$tools/join" "$folder/refused" 2> "$folder/err"
report no_parts $? 3

# GNU parallel stops where a part decides: one at a time, the first of two, so that the second one isn't begun.
if command -v parallel > "$folder/text"; then
    printf 'p cnf 2 1\ne 1 2 0\n1 0\n' > "$folder/first.qdimacs"
    "$tools/split" --over 1 "$folder/first.qdimacs" "$folder/first"
    parallel -j 1 --halt now,success=1 "$tools/part" {} "$program" ::: "$folder"/first/*.qscript 2> "$folder/err"
    report stops_early "$(join "$folder/first")" "$(printf 'SAT\n10')" "$(ls "$folder"/first/*.status)" \
        "$folder/first/part-0.status"
else
    echo "no parallel: the command of Debian's package of that name isn't there; all but its case is checked"
fi

exit $failures
