# shellcheck shell=bash disable=SC2015,SC2154
# What ./fir, ./sheet, ./library and ./test share: words, one prover at a time, and what was proved.
# The caller has set root, the repository's folder, and name, its own.
unset CDPATH
set +f

say() {
    echo "$name: $1" >&2
}

fail() {
    say "$1"
    exit 2
}

# The kit that the repository names, and the one that is here.
named_kit() {
    sed -n 's/^# kit: //p' "$root/crates.txt"
}

kit() {
    if command -v rt >/dev/null; then rt version; else named_kit; fi
}

need_kit() {
    local named here
    named=$(named_kit)
    command -v rt >/dev/null ||
        fail "no rt here: the core is proved by the Rattle kit ($named), whose rt is expected on PATH"
    here=$(rt version) || fail "rt version failed; the kit that is expected on PATH is $named"
    [ "$here" = "$named" ] ||
        say "the kit on PATH is $here, and this repository expects $named; should the proof fail, that may be why"
}

# All that is proved, by what it holds: the sources of every crate, crates.txt and the kit. What an
# editor leaves beside a source is none.
sources() {
    (
        cd "$root" || exit
        kit
        find -L crates -name out -prune -o -type f \( -path 'crates/*/src/*.rt' -o -path 'crates/*/specs/*.antt' \
            -o -path 'crates/*/proofs/*.antt' -o -path 'crates/*/data/*' \
            -o -name stdin -o -name stdout -o -name args \) -print0 |
            LC_ALL=C sort -z | xargs -0 sha256sum crates.txt "$@"
    ) | sha256sum | cut -d ' ' -f 1
}

# The record beside a file says from which sources it was made, and which file that was.
record_of() { # FILE SOURCES
    echo "$2 $(sha256sum <"$1")"
}

current() { # FILE [OTHER SOURCE..]
    [ -f "$1" ] && [ -f "$1.proof" ] &&
        [ "$(cat "$1.proof")" = "$(record_of "$1" "$(sources "${@:2}")")" ]
}

# Puts a file in its place, whole or not at all, with its record.
publish() { # NEW FILE SOURCES [OTHER SOURCE..]
    [ "$3" = "$(sources "${@:4}")" ] || fail "the sources changed meanwhile; call again"
    mkdir -p "$(dirname "$2")" &&
        record_of "$1" "$3" >"$1.proof" &&
        mv -f "$1" "$2" && mv -f "$1.proof" "$2.proof" ||
        fail "no room for $2"
}

# From here to unlock no other command proves in this folder. The lock is on crates/, which stays.
lock() {
    command -v flock >/dev/null || fail "flock is missing (Debian's util-linux has it)"
    exec 9<"$root/crates" || fail "cannot open $root/crates"
    flock -n 9 && return
    say "waiting for another command that proves here"
    flock 9 || fail "cannot lock $root/crates"
}

unlock() {
    exec 9<&-
}

# These crates and all that they rest on, as crates.txt has them: a crate below what it rests on.
in_order() { # CRATE..
    reached "$@" | tac
}

# The same, the other way round.
reached() { # CRATE..
    awk -v wanted="$*" '
        BEGIN { split(wanted, names, " "); for (i in names) want[names[i]] = 1 }
        /^[a-z]/ { line[++count] = $0 }
        END {
            for (i = count; i > 0; i--) {
                n = split(line[i], words, /[: ]+/)
                if (!(words[1] in want)) continue
                print words[1]
                for (k = 2; k <= n; k++) want[words[k]] = 1
            }
        }' "$root/crates.txt"
}

# Tells how far a proof is; a terminal has it in one line.
tell() { # COUNT TOTAL
    if [ -t 2 ]; then
        printf '\r%s: %d of %d crates proved' "$name" "$1" "$2" >&2
        [ "$1" -lt "$2" ] || echo >&2
    else
        say "$1 of $2 crates proved"
    fi
}

# What rt says in a crate's folder goes to the log. Where it fails, the words on what is not proved
# come out.
rt_in() { # CRATE WORD..
    (cd "$root/crates/$1" && rt "${@:2}") >>"$log" 2>&1 </dev/null && return
    not_proved "rt ${*:2} failed in crates/$1"
}

not_proved() { # WHY
    [ ! -t 2 ] || echo >&2
    grep -E 'error|not proved|no proof|FAILED' "$log" >&2
    fail "$1; $log has all that was said"
}

begin_log() {
    log=$root/target/${name%% *}.log
    mkdir -p "$root/target" && : >"$log" || fail "no room in $root/target"
}

# Proves and builds these crates, each after those that it rests on, and tells how far it is of TOTAL.
prove() { # TOTAL CRATE..
    local crate count=0
    for crate in "${@:2}"; do
        rt_in "$crate" lib
        count=$((count + 1))
        tell $count "$1"
    done
}

# A program of the crates, proved, built and run: what it prints must be the file stdout beside it.
prove_program() { # CRATE
    local folder=$root/crates/$1
    rm -f "$folder/out/$1"
    (cd "$folder" && rt run <stdin) >"$log.out" 2>>"$log" || not_proved "rt run failed in crates/$1"
    cmp -s "$log.out" "$folder/stdout" || not_proved "crates/$1 was proved, and its run FAILED: see $log.out"
    rm -f "$log.out"
}

# Proves and builds the sheet program, where it is not of the sources as they are.
make_sheet() {
    local program=$root/target/commands/sheet made crates
    ! current "$program" || return 0
    lock
    if ! current "$program"; then
        need_kit
        say "proving and building the program: up to half an hour, only once"
        made=$(sources)
        begin_log
        mapfile -t crates < <(in_order sheet | grep -vx sheet)
        prove $((${#crates[@]} + 1)) "${crates[@]}"
        prove_program sheet
        tell $((${#crates[@]} + 1)) $((${#crates[@]} + 1))
        mkdir -p "$root/target/commands" && cp "$root/crates/sheet/out/sheet" "$program.$$" ||
            fail "no room for $program"
        publish "$program.$$" "$program" "$made"
        say "proved and built in $SECONDS s"
    fi
    unlock
}

# Where standard input is closed, there is none.
open_input() {
    { true 3<&0; } 2>/dev/null || exec </dev/null
}

# Standard input from a file; - is standard input as it is.
take_input() { # FILE
    [ "$1" != - ] || return 0
    [ -r "$1" ] && [ ! -d "$1" ] || fail "cannot read $1"
    exec <"$1" || exit 2
}

# A file where F should be: it is turned down, in its turn.
hint_at_f() { # WORD
    [[ $1 =~ ^[0-9]+$ ]] || [ ! -f "$1" ] || say "$1 is a file, and F comes before the file"
}
