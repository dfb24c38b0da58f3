#!/bin/sh
# Runs the built program where no proof can speak: what the system makes of words, files, pipes and full devices.
# Usage: checks/gate/edge.sh PROGRAM. Prints a line a case, and ends with status 1 if one failed.
set -u

if [ $# -ne 1 ]; then
    echo "usage: $0 PROGRAM" >&2
    exit 2
fi
program=$1
example=$(dirname "$0")/../../crates/qbf_cli/stdin
folder=$(mktemp -d) || exit 2
trap 'rm -rf "$folder"' EXIT
failures=0

# report NAME STATUS WANTED [OUTPUT WANTED]..: the status that a case ended with, and what its outputs hold, with what
# is wanted of each.
report() {
    name=$1
    shift
    while [ $# -ge 2 ]; do
        if [ "$1" != "$2" ]; then
            echo "FAILED $name: got '$1' and not '$2'"
            failures=1
            return
        fi
        shift 2
    done
    echo "ok $name"
}

# The example on standard input is true.
"$program" solve < "$example" > "$folder/out" 2> "$folder/err"
report example $? 10 "$(cat "$folder/out")" SAT "$(cat "$folder/err")" ''

# The example as a file of that name.
"$program" solve "$example" < /dev/null > "$folder/out" 2> "$folder/err"
report file $? 10 "$(cat "$folder/out")" SAT "$(cat "$folder/err")" ''

# A word that isn't UTF-8.
"$program" solve "$(printf '\377')" < "$example" > "$folder/out" 2> "$folder/err"
report word $? 7 "$(cat "$folder/out")" '' "$(cat "$folder/err")" "error: a word isn't UTF-8"

# A folder and a missing file can't be read.
"$program" solve "$folder" < "$example" > "$folder/out" 2> "$folder/err"
report folder $? 3 "$(cat "$folder/out")" '' "$(cat "$folder/err")" 'qbf: read fault'

"$program" solve "$folder/missing" < "$example" > "$folder/out" 2> "$folder/err"
report missing $? 3 "$(cat "$folder/out")" '' "$(cat "$folder/err")" 'qbf: read fault'

# An empty word is the name of no file.
"$program" solve '' < "$example" > "$folder/out" 2> "$folder/err"
report empty_word $? 3 "$(cat "$folder/out")" '' "$(cat "$folder/err")" 'qbf: read fault'

# The example by a path of some 3,000 bytes.
cp "$example" "$folder/example"
dots=$(head -c 1450 /dev/zero | tr '\0' '.' | sed 's/\./.\//g')
"$program" solve "$folder/$dots/example" < /dev/null > "$folder/out" 2> "$folder/err"
report long_path $? 10 "$(cat "$folder/out")" SAT "$(cat "$folder/err")" ''

# A named pipe is opened once: there is room for one more open file alone.
mkfifo "$folder/named"
printf 'p qscript 1\nsolve\n' > "$folder/script"
for command in solve check script; do
    case $command in
        solve) text=$example status=10 said=SAT ;;
        check) text=$example status=10 said='p cnf 3 5' ;;
        script) text=$folder/script status=0 said=SAT ;;
    esac
    cat "$text" > "$folder/named" &
    writer=$!
    (ulimit -n 4 && exec "$program" $command "$folder/named") < /dev/null > "$folder/out" 2> "$folder/err"
    report "named_pipe_of_$command" $? $status "$(head -n 1 "$folder/out")" "$said" "$(cat "$folder/err")" ''
    kill $writer 2> /dev/null
done

# Words that ask for no command, for help or for a made formula read nothing: the whole input is left.
for words in '' --help help 'solve --help' 'solve --no-option' 'gen 1 4 2' 'demo 0 2'; do
    exec 3< "$example"
    "$program" $words <&3 > "$folder/out" 2> "$folder/err"
    report "nothing_read_by_$(echo qbf $words | tr ' ' '_')" "$(cat <&3)" "$(cat "$example")"
    exec 3<&-
done

# Standard input that is closed can't be read.
"$program" solve <&- > "$folder/out" 2> "$folder/err"
report closed_input $? 3 "$(cat "$folder/out")" '' "$(cat "$folder/err")" 'qbf: read fault'

# A full device takes nothing.
"$program" solve < "$example" > /dev/full 2> "$folder/err"
report full_device $? 4 "$(cat "$folder/err")" 'qbf: write fault'

# A pipe that nobody reads is a fault, and no death by a signal, which would be 141.
mkfifo "$folder/pipe"
exec 3<> "$folder/pipe" 4> "$folder/pipe" 3<&-
"$program" solve < "$example" >&4 2> "$folder/err"
report closed_pipe $? 4 "$(cat "$folder/err")" 'qbf: write fault'
exec 4>&-

# A full error output changes no status.
printf 'p cnf 1 2\n1 0\n' | "$program" solve > "$folder/out" 2> /dev/full
report full_error_output $? 2 "$(cat "$folder/out")" ''

exit $failures
