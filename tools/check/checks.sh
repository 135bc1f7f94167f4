# shellcheck shell=bash
# shellcheck disable=SC2034
# Sourced by the checks in bash: how cases are judged and counted. Those in Python have checks.py. It goes to the top of the
# repository, whose path it leaves in `top`, and makes the folder `work`, which is taken away at the end. Where a case fails,
# what stands in the files output and error there is shown.

top=$(cd "$(dirname "$(readlink -f "${BASH_SOURCE[0]}")")/../.." && pwd)
cd "$top" || exit 1
work=$(mktemp -d) || exit 1
trap 'rm -rf "$work"' EXIT
check=${0%/run}
check=${check##*/}
passed=0
failed=0
skipped=0
wrong=
: >"$work/output"

tell() { printf '%s: %s\n' "$check" "$1"; }
blame() { wrong+="${wrong:+, }$1"; } # blame WHY: adds to what is wrong with the case at hand
judge() { # judge WHAT [WHY]: counts a case, which passes where nothing is wrong with it
    [ -z "${2-}" ] || blame "$2"
    if [ -z "$wrong" ]; then
        passed=$((passed + 1))
        tell "$1: ok"
    else
        failed=$((failed + 1))
        tell "$1: FAILED, $wrong"
        head -n 10 "$work/output" "$work/error" 2>/dev/null || :
    fi
    wrong=
}
skip() { # skip WHAT: counts what can't be tried
    skipped=$((skipped + 1))
    tell "skipped: $1"
}
end_checks() { # the last line, which counts, and the status
    tell "$passed passed, $failed failed$([ "$skipped" -eq 0 ] || echo ", $skipped skipped")"
    [ "$failed" -eq 0 ]
    exit
}

is_there() { command -v "$1" >/dev/null; }
# run STATUS COMMAND..: runs it, and blames it for another status; both its outputs go to $work/output
run() {
    local wanted=$1 status=0
    shift
    "$@" >"$work/output" 2>&1 </dev/null || status=$?
    [ "$status" -eq "$wanted" ] || blame "status $status, not $wanted"
}
is_expected() { # is_expected WANT GOT: whether a file has the bytes of the file WANT, anything where that is -, or something where +
    case $1 in
    -) return 0 ;;
    +) [ -s "$2" ] ;;
    *) cmp -s "$1" "$2" ;;
    esac
}
# counted FILE: adds what the last line of a log counts, and leaves that in `counted_line`; says 0 where it counts
counted() {
    local line
    line=$(grep -av '^[[:space:]]*$' "$1" | tail -n 1)
    [[ $line =~ ^([a-z0-9-]+:\ )?([0-9]+)\ passed,\ ([0-9]+)\ failed(,\ ([0-9]+)\ skipped)?$ ]] || return 1
    passed=$((passed + BASH_REMATCH[2]))
    failed=$((failed + BASH_REMATCH[3]))
    skipped=$((skipped + ${BASH_REMATCH[5]:-0}))
    counted_line=${line#*: }
}
# python_of RELEASE [MODULE]: the path of a Python of this release, which has the module; or nothing
python_of() {
    local path
    for path in "$(command -v "python$1")" "${PYENV_ROOT:-$HOME/.pyenv}/versions/$1".*/bin/python3; do
        [ -x "$path" ] || continue
        "$path" -c "import sys, ${2:-sys}; assert '%d.%d.'.__mod__(sys.version_info[:2]).startswith('$1.'); print(sys.executable)" \
            2>/dev/null && return
    done
}
# blame_calls MODULE: blames a compiled module of Python for a call that not both of glibc and musl have, for arrays without a guard,
# and for calls that are found late
blame_calls() {
    local more
    nm -D --undefined-only "$1" | awk '{ sub(/@.*/, "", $NF); print $NF }' >"$work/calls"
    more=$(grep -vE '^_?Py|^_ITM_|^__cxa_finalize$|^__gmon_start__$' "$work/calls" |
        grep -vxE 'malloc|realloc|free|mem(chr|cmp|cpy|move|set)|bcmp|str(cspn|len|ncmp|tol)|__stack_chk_(fail|guard)' | paste -sd ' ')
    [ -z "$more" ] || blame "it calls $more"
    grep -qx __stack_chk_fail "$work/calls" || blame "its arrays have no guard"
    readelf --wide --dynamic "$1" | grep -q BIND_NOW || blame "what it calls is found late"
}
