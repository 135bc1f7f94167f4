# shellcheck shell=bash
# shellcheck disable=SC2034
# Sourced by tools/make/built, tools/make/library, tools/make/prove and tools/release, which set `top`, the folder of the
# repository: its crates by crates.txt, the sums of their sources, and runs of the kit's gate on a copy of them.

fail() { # fail TEXT: as the program's own failures, with status 3
    echo "${who:-${0#"$top/"}}: $1" >&2
    exit 3
}
usage() { # usage STATUS: the comment at the head of the tool
    sed -n '2,/^set/{/^#/s/^# \{0,1\}//p}' "$0"
    exit "$1"
}

# ---- the crates

declare -A lines=() libraries=() # the line of each crate in crates.txt, and what it stands on
while IFS= read -r line; do
    [[ $line == *:* ]] || continue
    name=${line%%:*}
    name=${name%% *}
    lines[$name]=$line
    libraries[$name]=${line#*:}
    libraries[$name]=${libraries[$name]# }
done <"$top/crates.txt"
crates=()
add_crate() { # add_crate CRATE: the crates of this repository that it stands on, and then itself
    local library
    [[ " ${crates[*]-} " != *" $1 "* && -v lines[$1] ]] || return 0
    for library in ${libraries[$1]}; do add_crate "$library"; done
    crates+=("$1")
}

# what a check of a crate reads, and what a run of its program does
parts_of_check=(src specs proofs)
parts_of_run=(stdin stdout args status data)
sums_of_files() { # sums_of_files FOLDER..: a line for each file below them
    find "$@" -name __pycache__ -prune -o -type f -print0 | LC_ALL=C sort -z | xargs -0 sha256sum
}
sum() { sha256sum | cut -d ' ' -f 1; } # of standard input
parts_of() { # parts_of FOLDER: those that a check of the crate in this folder reads
    local part
    for part in "${parts_of_check[@]}"; do [ ! -e "$1/$part" ] || printf '%s\n' "$1/$part"; done
}
copy_crates() { # copy_crates FOLDER: the crates, in a folder that the gate takes for a repository
    local crate part
    mkdir -p "$1/crates"
    cp "$top/HANDLES" "$1/HANDLES"
    for crate in "${crates[@]}"; do
        printf '%s\n' "${lines[$crate]}" >>"$1/crates.txt"
        mkdir "$1/crates/$crate"
        for part in "${parts_of_check[@]}" "${parts_of_run[@]}"; do
            [ ! -e "$top/crates/$crate/$part" ] || cp -r "$top/crates/$crate/$part" "$1/crates/$crate/$part"
        done
    done
}

# ---- a run that ends, however it ends, leaves nothing behind: neither its room nor what it started

room=''
process=''
nap=''
clean_up() {
    # it is the first of a process group, in which is all that it started; a signal may come before its number is kept. The shell
    # would tell of its end, which is waited for here: not each system's first process does that at once
    [ "$process" != starting ] || process=${!-}
    [ -z "$process" ] || { kill -9 -- "-$process" && wait "$process"; } 2>/dev/null || :
    [ -z "$nap" ] || kill "$nap" 2>/dev/null || :
    [ -z "$room" ] || rm -rf "$room"
}
make_room() { # leaves in `room` a new folder
    trap clean_up EXIT
    trap 'exit 130' INT
    trap 'exit 143' TERM
    trap 'exit 129' HUP
    room=$(mktemp -d)
}
elapsed() { printf '%d:%02d' $((SECONDS / 60)) $((SECONDS % 60)); }
# tells, where `all` says of how many, of each crate that the gate has proved since the last call: on a terminal in one line that is
# rewritten
told=0
all=''
tell_proved() {
    local crate proved
    [ -n "$all" ] || return 0
    mapfile -t proved < <(sed -n 's/^rt: \([a-z_]*\) proved$/\1/p' "$room/log" 2>/dev/null)
    if [ -t 2 ]; then
        printf '\r\033[K%s: %d of %d crates proved, %s' "$who" "${#proved[@]}" "$all" "$(elapsed)" >&2
        return 0
    fi
    for crate in "${proved[@]:told}"; do
        told=$((told + 1))
        echo "$who: $crate is proved, $told of $all crates, $(elapsed)" >&2
    done
}
run() { # run FOLDER COMMAND..: runs it there; where it fails, the end of what it printed is shown
    local status=0
    process=starting
    set -m
    (cd "$1" && shift && exec "$@") >"$room/log" 2>&1 </dev/null &
    process=$!
    set +m
    while kill -0 "$process" 2>/dev/null; do
        tell_proved
        sleep 1 &
        nap=$!
        wait "$nap" || :
    done
    wait "$process" || status=$?
    process=''
    nap=''
    tell_proved
    [ -z "$all" ] || [ ! -t 2 ] || printf '\r\033[K' >&2
    [ "$status" -eq 0 ] || tail -n 40 "$room/log" >&2
    return "$status"
}
run_gate() { # run_gate FOLDER WORD..: rt ci with these words
    local status=0
    cat >&2 <<END_OF_TEXT
$who: this takes half an hour to an hour on 4 cores, longer on fewer, and up to 5 GB of memory for each crate that is proved at a
$who: time.
END_OF_TEXT
    RT_JOBS=$("$top/tools/make/jobs")
    export RT_JOBS
    all=${#crates[@]}
    run "$1" rt ci "${@:2}" || status=$?
    all=''
    return "$status"
}
