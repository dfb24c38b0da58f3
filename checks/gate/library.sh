#!/usr/bin/env bash
# Builds the libraries for C and tries them from C, C++ and Python: each call with each code, drawn sessions against
# brute force, each request for memory refused in turn, handles that move between threads, the examples, DepQBF's names,
# an installation with pkg-config, and the package in an empty virtual environment. Usage: checks/gate/library.sh PROGRAM
# [FOLDER]. PROGRAM is bin/qbf. With FOLDER the libraries there are tried, and none is built. Prints a line a case, and
# ends with status 1 if one failed. This needs a C compiler and Python 3. What needs valgrind, pkg-config, DepQBF's
# library, another compiler or Python's venv is left out without it, and a line says so.
set -u

if [ $# -lt 1 ] || [ $# -gt 2 ]; then
    echo "usage: $0 PROGRAM [FOLDER]" >&2
    exit 2
fi
program=$(realpath "$1") || exit 2
root=$(cd "$(dirname "$0")/../.." && pwd) || exit 2
tests=$root/checks/gate/library
folder=$(mktemp -d) || exit 2
trap 'rm -rf "$folder"' EXIT
failures=0
export PYTHONDONTWRITEBYTECODE=1
grants=$(cat "$root/examples/grants.out")

# report NAME COMMAND..: the command is to end well. What it writes is shown where it doesn't.
report() {
    local name=$1
    shift
    if "$@" > "$folder/said" 2>&1; then
        echo "ok $name"
    else
        echo "FAILED $name: status $? of $*"
        head -20 "$folder/said"
        failures=1
    fi
}

# equal NAME GOT WANTED
equal() {
    if [ "$2" = "$3" ]; then
        echo "ok $1"
    else
        echo "FAILED $1: got '$2' and not '$3'"
        failures=1
    fi
}

has() {
    command -v "$1" > /dev/null
}

# without TOOL WHAT: says what isn't tried.
without() {
    echo "no $1: $2 isn't tried"
}

# The libraries.
if [ $# -eq 2 ]; then
    libraries=$(realpath "$2") || exit 2
else
    libraries=$root/lib
    report library_made make -s -C "$root" lib
fi
archive=$libraries/libqbf.a
layer=$libraries/libqbf_qdpll.a
if [ ! -e "$archive" ] || [ ! -e "$libraries/libqbf.so" ] || [ ! -e "$layer" ]; then
    echo "FAILED library_there: no libraries in $libraries"
    exit 1
fi
export LD_LIBRARY_PATH=$libraries QBF_LIBRARY=$libraries/libqbf.so.1

# The header's exports, and what the library has and wants beside them.
declared=$(sed -n 's/^[a-z0-9_]* \(qbf_[a-z_]*\)(.*/\1/p' "$root/include/qbf.h" | sort)
exported=$(nm -D --defined-only "$libraries/libqbf.so" | sed -n 's/^.* T //p' | sed 's/@.*//' | sort)
equal library_exports "$exported" "$declared"
wanted=$(nm "$archive" | sed -n 's/^ *U //p' | grep -v '^rattle_' | sort -u | tr '\n' ' ')
equal library_wants "$wanted" 'free malloc memcpy memmove memset realloc '
equal library_soname "$(readelf -d "$libraries/libqbf.so" | sed -n 's/.*soname: \[\(.*\)\]/\1/p')" libqbf.so.1

# The pages: what they quote is in the examples, and docs/C.md has each of DepQBF's names.
report library_page_c python3 "$tests/quotes.py" "$root/docs/C.md" "$root"/examples/grants.{c,out}
report library_page_python python3 "$tests/quotes.py" "$root/docs/PYTHON.md" "$root"/examples/grants.{py,out}
listed=$(sed -n '/^| Function/,/^$/p' "$root/docs/C.md" | cut -d '|' -f 2 | grep -o '`[a-z_]*[a-z]`' | tr -d '`' | sort)
equal library_page_names "$listed" "$(sed -n 's/^.*qdpll_\([a-z_]*\)(.*/\1/p' "$root/compat/qdpll.h" | sort)"

# c NAME COMPILER SOURCE [WORD]..: compiles a program with warnings as errors.
c() {
    local name=$1 compiler=$2 source=$3
    shift 3
    report "compiled_$name" "$compiler" -O2 -Wall -Wextra -pedantic -Werror -I"$root/include" "$source" \
        -o "$folder/$name" "$@"
}

# Each program by each compiler that is there, with the archive.
for compiler in gcc clang; do
    if ! has $compiler; then
        without $compiler "the programs in C"
        continue
    fi
    for name in calls sessions threads; do
        c "${name}_$compiler" $compiler "$tests/$name.c" -std=c99 -pthread "$archive"
        report "${name}_$compiler" "$folder/${name}_$compiler" 1000
    done
    c "example_$compiler" $compiler "$root/examples/grants.c" -std=c99 "$archive"
    equal "example_$compiler" "$("$folder/example_$compiler")" "$grants"
done
for compiler in g++ clang++; do
    if ! has $compiler; then
        without $compiler "the program in C++"
        continue
    fi
    c "example_$compiler" $compiler "$root/examples/grants.cpp" -std=c++11 "$archive"
    equal "example_$compiler" "$("$folder/example_$compiler")" "$grants"
done

# With the shared library.
c calls_shared cc "$tests/calls.c" -std=c99 -L"$libraries" -lqbf
report calls_shared "$folder/calls_shared"

# DepQBF's names.
c qdpll cc "$tests/qdpll_sessions.c" -std=c99 -I"$root/compat" "$layer" "$archive"
report qdpll "$folder/qdpll" 1000
c same cc "$tests/qdpll_same.c" -std=c99 -I"$root/compat" "$layer" "$archive"
if [ -e /usr/include/qdpll/qdpll.h ]; then
    report compiled_depqbf cc "$tests/qdpll_same.c" -std=c99 -O2 -I/usr/include/qdpll -o "$folder/depqbf" -lqdpll
    report same_as_depqbf cmp <("$folder/same" 1000) <("$folder/depqbf" 1000)
else
    without DepQBF "that its library tells the same"
fi

# Each request for memory refused in turn.
c refused cc "$tests/refused.c" -std=c99 -Wl,--wrap=malloc,--wrap=realloc "$archive"
report refused "$folder/refused"

# The same with each access and each block of memory watched.
if has valgrind; then
    watched="valgrind -q --error-exitcode=9 --leak-check=full --errors-for-leak-kinds=all"
    report valgrind_calls $watched "$folder/calls_shared"
    report valgrind_refused $watched "$folder/refused" 29
    report valgrind_qdpll $watched "$folder/qdpll" 20
    c sessions_watched cc "$tests/sessions.c" -std=c99 "$archive"
    report valgrind_sessions $watched "$folder/sessions_watched" 20
    c threads_watched cc "$tests/threads.c" -std=c99 -pthread "$archive"
    report helgrind_threads valgrind -q --tool=helgrind --error-exitcode=9 "$folder/threads_watched"
else
    without valgrind "memory and threads that are watched"
fi

# Python: the package as it stands here.
export PYTHONPATH=$root/python
equal python_example "$(python3 "$root/examples/grants.py")" "$grants"
report python_package python3 "$tests/package.py" "$program"
report python_sessions python3 "$tests/drawn.py"
unset PYTHONPATH

# Installed, and found by pkg-config.
if [ $# -eq 1 ] && has pkg-config; then
    export PKG_CONFIG_PATH=$folder/usr/lib/pkgconfig
    report installed make -s -C "$root" install-lib PREFIX="$folder/usr"
    c installed_example cc "$root/examples/grants.c" -std=c99 $(pkg-config --cflags --libs qbf)
    equal installed_example "$(LD_LIBRARY_PATH=$folder/usr/lib "$folder/installed_example")" "$grants"
    c installed_qdpll cc "$tests/qdpll_sessions.c" -std=c99 $(pkg-config --cflags --libs qbf_qdpll)
    report installed_qdpll env LD_LIBRARY_PATH="$folder/usr/lib" "$folder/installed_qdpll" 10
    report uninstalled make -s -C "$root" uninstall PREFIX="$folder/usr"
    equal uninstalled_all "$(find "$folder/usr" -type f)" ''
elif [ $# -eq 1 ]; then
    without pkg-config "a program that is built against the installed library"
fi

# The package installed into an empty virtual environment, without a network.
if python3 -m venv "$folder/venv" > /dev/null 2>&1; then
    report pip "$folder/venv/bin/python" -m pip install -q --no-index --disable-pip-version-check "$root/python"
    said=$(env -u QBF_LIBRARY -u LD_LIBRARY_PATH "$folder/venv/bin/python" "$root/examples/grants.py")
    equal pip_example "$said" "$grants"
else
    without venv "the package in an empty environment"
fi

exit $failures
