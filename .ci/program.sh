#!/usr/bin/env bash
# Runs the programs over the cases of .ci/program.txt: what they write, their line on standard error
# and their status. Without arguments it takes utf16_cat, utf16_enc and utf16_check in their crates,
# as each of the two compilers builds them over the crates that rt ci proved. A program that is
# named is run over the cases of utf16_enc or utf16_check if the name of its file begins so. RUN
# starts a program of another machine, such as `wine`, and CC compiles for it: a line says how many
# cases need more than that. SAYS and USAGE are the formats of what messages begin with, and of the
# usage, for a program that also takes the name of a file; LEFT_OUT is a pattern of the cases that
# it does not have. Prints each case that fails, and last a line 'N passed, M failed'.
set -uo pipefail
top=$(cd "$(dirname "$0")/.." && pwd)
room=$(mktemp -d)
trap 'rm -rf "$room"' EXIT
programs=()
for program; do programs+=("$(realpath -m "$program")"); done
cd "$room" || exit 1
passed=0
failed=0
left_out=0
# What only this machine has of what a case needs, and how a library is preloaded.
case ${RUN-}${OS-} in
    '') native='^$' preload=LD_PRELOAD ;;
    *wine* | *Windows_NT) native='with_|ulimit|>&- 2>&-|\((letters|seq) .0000' preload='' ;;
    *) native='with_little_memory|ulimit -v' preload=QEMU_SET_ENV=LD_PRELOAD ;;
esac
native=${LEFT_OUT:-$native}
export WINEDEBUG=-all
[ -z "$preload" ] ||
    ${CC:-cc} -O2 -Wall -shared -fPIC -o faults.so "$top/.ci/faults.c" -ldl || exit 1
mkdir folder
# The rows of the table, with a tab between columns.
sed -E '/^(#|$)/d; s/ {2,}/\t/g' "$top/.ci/program.txt" > rows || exit 1

# Prints this many letters in UTF-8, the same in UTF-16LE, and the report on trailing surrogates.
letters() { head -c "$1" /dev/zero | tr '\0' a; }
units() { letters "$1" | sed 's/a/a\x0/g'; }
reported() {
    seq 0 2 $((2 * $1 - 2)) |
        awk '{ printf "0x%X (%d): unpaired trailing surrogate DCDC\n", $1, $1 }'
}

# Runs $P in a byte order with so little memory that it starts and an allocation fails. The limit is
# searched between one at which it does not start, so that prlimit, the loader or a signal gives
# the status, and one at which it succeeds.
with_little_memory() {
    local low=0 high=1048576 limit status
    while [ $((high - low)) -gt 1 ]; do
        limit=$(((low + high) / 2))
        prlimit --as=$((limit * 1024)) "$P" "$1" > part 2> line < front
        status=$?
        if [ $status = 0 ]; then
            high=$limit
        elif [ $status -ge 126 ]; then
            low=$limit
        else
            cat part
            cat line >&2
            return $status
        fi
    done
    echo 'no allocation failed'
    return 3
}

# Runs $P with these arguments, and one of its calls fails: the kind of the call, and its number.
# Descriptor 9 gets a byte if the call is made, and one for each later write to where a write
# failed.
with_fault() {
    FAULT_KIND=$1 FAULT_AT=$2 timeout 60 env "$preload=$PWD/faults.so" "$P" "${@:3}"
}

# Prints how much a run wrote of what a run without a fault writes.
share_of_whole() {
    if [ ! -s part ]; then
        echo nothing
    elif cmp -s part whole; then
        echo all
    else
        cmp -s part <(head -c "$(stat -c %s part)" whole) && echo part || echo other
    fi
}

# Runs $P with these arguments and each call of a kind failing in turn. Prints once what each such
# run ends with: its status, how much it writes, and its line. Then ends as the run does in which no
# call fails. INPUT names another file than `front` for the standard input.
with_each() {
    local at=0 status
    "$P" "${@:2}" > whole 2> line < "${INPUT-front}"
    while
        at=$((at + 1))
        with_fault "$1" $at "${@:2}" > part 2> line 9> met < "${INPUT-front}"
        status=$?
        [ -s met ]
    do
        echo "$status $(share_of_whole) $(cat line)"
    done > ends
    sort -u ends
    cat line >&2
    return $status
}
export -f letters units with_little_memory with_fault share_of_whole with_each
export P W A FRONT BIG preload

# Runs a command over a file, and compares what it does with the output, the status and the message
# of the row.
try() {
    local line="$says: $message\n" found
    [ -n "$message" ] || line=''
    [ "$message" != usage ] || line="usage: $usage\n"
    # On a busy machine wine does not always start a program, so a case is tried twice.
    for _ in 1 ${RUN:+2}; do
        bash -c "$1" > found 2> errors < "$2"
        found=$?
        # shellcheck disable=SC2059
        if [ $found = "${status:-0}" ] && printf "${output//\$NAME/$name}" | cmp -s - found &&
            printf "$line" | cmp -s - errors; then
            passed=$((passed + 1))
            return
        fi
    done
    failed=$((failed + 1))
    echo "failed: $name: $words ${input//\$W/$W}: status $found, $(head -c 200 errors)"
}

# Makes `program`, which has no blank in its path and starts a program.
make_startable() {
    rm -f program
    if [ -z "${RUN-}" ]; then
        ln -s "$1" program
    else
        printf '#!/bin/sh\nexec %s "%s" "$@"\n' "$RUN" "$1" > program && chmod +x program
    fi
}

# Whether a program refuses words: all do, unless there are only a byte order and a file.
is_refused() {
    [ -n "${SAYS-}" ] || return 0
    eval "set -- $1"
    [[ " $orders " != *" $1 "* ]] || shift
    [ $# -gt 1 ]
}

# Runs a program over the table.
run() {
    local whose words input output status message each
    while IFS=$'\t' read -r whose words input output status message; do
        [[ $whose = all || utf16_$whose = "$name" ]] || continue
        [[ ! "$words $input" =~ $native ]] || { left_out=$((left_out + 1)) && continue; }
        [ "$input" != ! ] || is_refused "$words" || continue
        [ "$input" != ! ] || input='h\0i\0' output='h\0i\0' status=2 message=usage
        [ -z "${SAYS-}" ] || input=${input//\$P LE/\$P LE LE}
        W=le
        for each in words input output; do
            [ "${!each}" != - ] || printf -v $each ''
        done
        if [ "$words" != '$' ]; then
            # shellcheck disable=SC2059
            printf "$input" > input
            try "\$P $words; s=\$?; cat; exit \$s" input
            continue
        fi
        for W in $([[ $input == *\$W* ]] && echo "$orders" || echo le); do
            FRONT=front_$W
            [ -e "$FRONT" ] || FRONT=$front
            try "$input" hi
        done
    done < rows
}

while IFS=$'\t' read -r whose file command; do
    case $whose in
        file) eval "$command" > "$file" ;;
        all | cat | enc | check) ;;
        *) echo "failed: program.txt: no program is $whose" && failed=$((failed + 1)) ;;
    esac
done < rows
for name in $([ $# != 0 ] || echo utf16_cat utf16_enc utf16_check); do
    for build in llvm: rattle:.by-rattle; do
        programs+=("$top/crates/$name/out/$name${build#*:}")
        "$top/.ci/compile.sh" "${build%:*}" "$name" "${programs[-1]}" > said 2>&1 || tail -n 3 said
    done
done
P=$room/program
for program in "${programs[@]}"; do
    if [ ! -x "$program" ]; then
        failed=$((failed + 1))
        echo "failed: there is no program $program"
        continue
    fi
    make_startable "$program"
    name=utf16_cat orders='le be auto' A=auto BIG=zeros front=front
    case $(basename "$program") in
        utf16_enc*) name=utf16_enc orders='le be le-bom be-bom' A=le-bom ;;
        utf16_check*) name=utf16_check BIG=trailing front=front_report ;;
    esac
    # shellcheck disable=SC2059
    says=$(printf "${SAYS:-utf16_%s}" "${name#utf16_}") \
        usage=$(printf "${USAGE:-utf16_%s %s}" "${name#utf16_}" "${orders// /|}")
    run
done
[ $left_out = 0 ] || echo "$left_out cases are only for this machine"
echo "$passed passed, $failed failed"
[ $failed = 0 ]
