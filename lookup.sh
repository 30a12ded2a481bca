#!/bin/sh
# Runs the proved program with the words that it is given, and proves and builds it first where that is needed:
#
#   ./lookup.sh table UPDATES QUERY..
#   ./lookup.sh list UPDATES QUERY..
#   ./lookup.sh make SEED LINES
#   ./lookup.sh judge table UPDATES QUERY.. REPORT
#
# Files are relative to the caller's directory. Standard output and the status are the program's. What is told of a
# build goes to standard error; the status is 125, which the program never has, where there is none to run.

say() {
    printf 'lookup.sh: %s\n' "$1" >&2
}

give_up() {
    say "$1"
    exit 125
}

# The folder of this file, also where it is called by a symbolic link to it.
self=$0
while [ -L "$self" ]; do
    link=$(readlink "$self") || give_up "cannot read the link $self"
    case $link in
    /*) self=$link ;;
    *) self=$(dirname "$self")/$link ;;
    esac
done
top=$(CDPATH='' cd -- "$(dirname "$self")" && pwd -P) || give_up "cannot find the repository of $self"
crate=$top/crates/lookup
program=$crate/out/lookup
kit_name=$top/out/kit
log=$top/out/build.log

usage() {
    echo 'usage: lookup table|names|list [--seed N] [--workers N] [--fold] UPDATES QUERY..' >&2
    exit 2
}

# Ends with the usage line for words that surely aren't of the form. On all others the program decides.
look_at_words() {
    case ${1-} in
    table | list)
        shift
        look_at_files 2 65 "$@"
        ;;
    make) [ $# -eq 3 ] || usage ;;
    judge)
        [ "${2-}" = table ] || usage
        shift 2
        look_at_files 3 66 "$@"
        ;;
    *) usage ;;
    esac
}

# The same of the words after a kind: there are from so many files to so many.
look_at_files() {
    least=$1
    most=$2
    shift 2
    files=0
    options=yes
    while [ $# -gt 0 ]; do
        word=$1
        shift
        if [ "$options" = yes ]; then
            case $word in
            --)
                options=no
                continue
                ;;
            --seed=* | --workers=*) continue ;;
            --seed | --workers)
                [ $# -gt 0 ] || usage
                shift
                continue
                ;;
            -) ;;
            -*) usage ;;
            esac
        fi
        [ -n "$word" ] || usage
        files=$((files + 1))
    done
    [ "$files" -ge "$least" ] && [ "$files" -le "$most" ] || usage
}

# The crates that the program stands on, and itself, each behind those that it takes.
crates() {
    awk '
        /^[a-z]/ {
            split($0, sides, ":")
            split(sides[1], words, " ")
            takes[words[1]] = sides[2]
        }
        function visit(name, many, words, i) {
            if (name in seen) return
            seen[name] = 1
            many = split(takes[name], words, " ")
            for (i = 1; i <= many; i++) if (words[i] in takes) visit(words[i])
            print name
        }
        END { visit("lookup") }' "$top/crates.txt"
}

# The folder of the kit that the command rt is from.
kit() {
    command=$(command -v rt) || return 1
    dirname "$(dirname "$(readlink -f "$command")")"
}

# Prints why the program has to be built, or nothing.
why_build() {
    if [ ! -x "$program" ]; then
        echo "it isn't there yet"
        return
    fi
    for name in $(crates); do
        for part in src specs proofs; do
            [ -d "$top/crates/$name/$part" ] || continue
            if [ -n "$(find "$top/crates/$name/$part" -newer "$program" | head -n 1)" ]; then
                echo "a source of $name is newer"
                return
            fi
        done
    done
    if [ "$top/crates.txt" -nt "$program" ] || [ "$top/HANDLES" -nt "$program" ]; then
        echo 'the list of crates or handles is newer'
        return
    fi
    kit=$(kit) && [ -f "$kit/KIT-ID" ] || return
    if [ "$kit/KIT-ID" -nt "$program" ] || { [ -f "$kit_name" ] && ! cmp -s "$kit/KIT-ID" "$kit_name"; }; then
        echo 'the kit is newer, or another'
    fi
}

seconds() {
    date +%s
}

# Runs rt in the folder of a crate. What it says goes to the log.
prove() {
    name=$1
    shift
    (CDPATH='' cd -- "$top/crates/$name" && rt "$@") </dev/null >>"$log" 2>&1
}

# Empties a file, or makes it. A shell ends where a redirection of `:` fails, and not where that of `true` does.
make_empty() {
    { true >"$1"; } 2>/dev/null
}

# Proves and builds the crates in their order, the program last, which is also run on its stored example. A source that
# changes meanwhile is newer than the program, which gets the time of the build's begin.
build() {
    command -v rt >/dev/null || give_up "cannot build the program ($1): the command rt is not on the PATH"
    mkdir -p "$top/out" 2>/dev/null && make_empty "$log" && make_empty "$top/out/begun" || give_up "cannot build the program ($1): cannot write to $log"
    say "building the program: $1. This takes a while; the prover's lines go to $log"
    begun=$(seconds)
    all=$(crates | wc -l)
    number=0
    for name in $(crates); do
        number=$((number + 1))
        spent=$(($(seconds) - begun))
        say "$(printf '%d of %d, %s, at %d:%02d' "$number" "$all" "$name" $((spent / 60)) $((spent % 60)))"
        if [ "$name" = lookup ]; then
            prove "$name" run -- table data/example.updates data/example.queries
        else
            prove "$name" lib
        fi || give_up "cannot build the program: $name failed; see the end of $log"
    done
    [ -x "$program" ] || give_up "cannot build the program: rt left no $program; see the end of $log"
    touch -r "$top/out/begun" "$program"
    kit=$(kit) && [ -f "$kit/KIT-ID" ] && cp "$kit/KIT-ID" "$kit_name"
    spent=$(($(seconds) - begun))
    say "$(printf 'built in %d:%02d' $((spent / 60)) $((spent % 60)))"
}

why=$(why_build)
if [ -n "$why" ]; then
    look_at_words "$@"
    build "$why"
fi
# Large pieces of memory come in pages of 2 MiB where the kernel has them: less time goes to faults (glibc 2.35 and later).
export GLIBC_TUNABLES="${GLIBC_TUNABLES:-glibc.malloc.hugetlb=1}"
exec "$program" "$@"
