#!/usr/bin/env bash
# One command for people; `./fir help` lists what there is, and commands/ has a file for each. It checks
# the usage, proves the core and builds the program where there is none of the sources as they are, and
# hands over to it. Exit status 0: done; 1: turned down, and standard error says why; 2: anything else.
set -u
name=fir
root=$(dirname "$(readlink -f "$0")")
. "$root/commands/shared/proof.sh" || exit 2
program=$root/target/commands/fir

# The comment on top of a command's file: its usage, a line on what it does, an empty one and the rest.
help_of() { # COMMAND
    sed -n '/^#/q; s,^/\* ,,; s,^ \* \{0\,1\},,; s, \*/$,,; p' "$root/commands/$1.c"
}

usage_of() { # COMMAND
    help_of "$1" | head -n 1
}

list() {
    local file usage
    echo "usage: fir COMMAND .."
    for file in "$root"/commands/*.c; do
        usage=$(basename "$file" .c)
        printf '  %-28s  %s\n' "$(usage_of "$usage")" "$(help_of "$usage" | sed -n 2p)"
    done
    echo "Where FILE or SHEET is missing, or -, standard input is read. fir help COMMAND says more."
}

help() { # [COMMAND]
    if [ $# -eq 0 ]; then
        list
    elif is_command "$1"; then
        echo "usage: fir $(help_of "$1")"
    else
        fail "there is no command $1; fir help lists those that there are"
    fi
}

is_command() {
    [[ $1 =~ ^[a-z]+$ ]] && [ -f "$root/commands/$1.c" ]
}

wrong() { # WORDS
    say "$1"
    fail "usage: fir $usage"
}

# The names of the words that a command takes, how many it wants, and its options. Of those that stand
# in one pair of brackets one may be given.
read_usage() {
    local parts part
    usage=$(usage_of "$command")
    read -ra parts <<<"${usage#"$command"}"
    for part in "${parts[@]}"; do
        case $part in
        "[-"*) known+=("${part//[][]/}") ;;
        "["*) names+=("${part//[][]/}") ;;
        *) least=$((least + 1)) names+=("$part") ;;
        esac
    done
}

option() { # OPTION
    local group other
    for group in "${known[@]}"; do
        [[ "|$group|" == *"|$1|"* ]] || continue
        for other in "${options[@]}"; do
            [ "$other" = "$1" ] || [[ "|$group|" != *"|$other|"* ]] || wrong "$other and $1 exclude each other"
        done
        options+=("$1")
        return
    done
    wrong "there is no option $1"
}

# Options stand anywhere, up to a --; what begins with a dash and a digit is a number.
take_arguments() { # ARGUMENT..
    while [ $# -gt 0 ] && [ "$1" != -- ]; do
        case $1 in
        -[!0-9]*) option "$1" ;;
        *) words+=("$1") ;;
        esac
        shift
    done
    words+=("${@:2}")
    [ ${#words[@]} -ge "$least" ] || wrong "too few arguments"
    [ ${#words[@]} -le ${#names[@]} ] || wrong "too many arguments"
}

# The file becomes standard input, and the other words stay.
take_words() {
    local i
    for ((i = 0; i < ${#words[@]}; i++)); do word "${names[i]}" "${words[i]}"; done
    case ${names[-1]} in FILE | SHEET) reads=1 ;; esac
    [ -z "$reads" ] || [ ${#words[@]} -lt ${#names[@]} ] || unset 'words[-1]'
}

# A word by what the usage calls it.
word() { # NAME WORD
    case $1 in
    F) hint_at_f "$2" ;;
    N) is_coefficient "$2" || wrong "$2 is no whole number from -2147483648 to 2147483647" ;;
    WIDTH) [[ $2 =~ ^[0-9]+$ ]] || wrong "$2 is no whole number from 0 on" ;;
    FILE | SHEET) take_input "$2" ;;
    esac
}

is_coefficient() {
    [[ $1 =~ ^(-?)0*([0-9]{1,10})$ ]] &&
        [ "${BASH_REMATCH[1]}${BASH_REMATCH[2]}" -ge -2147483648 ] &&
        [ "${BASH_REMATCH[1]}${BASH_REMATCH[2]}" -le 2147483647 ]
}

# The program comes from the header, commands/ and the library, which stays as it is under the lock.
make_program() {
    local header=include/fir.h archive=$root/target/staticlib/libfir.a parts made
    parts=("$header" commands/*.c commands/*/*.[ch])
    ! current "$program" "${parts[@]}" || return 0
    made=$(sources "${parts[@]}")
    until lock && current "$archive" "$header"; do
        unlock
        "$root/library" >/dev/null || exit 2
    done
    mkdir -p "$root/target/commands" || fail "no room for $program"
    cc -std=c99 -D_POSIX_C_SOURCE=200809L -O2 -Iinclude \
        commands/*.c commands/*/*.c "$archive" -lm -o "$program.$$" || fail "cc failed"
    publish "$program.$$" "$program" "$made" "${parts[@]}"
    unlock
}

case ${1-help} in
help | -h | --help)
    [ $# -le 2 ] || fail "usage: fir help [COMMAND]"
    text=$(help "${@:2}") || exit
    printf '%s\n' "$text" || fail "the help could not be written"
    exit 0
    ;;
esac
command=$1 usage='' least=0 known=() names=() options=() words=() reads=''
is_command "$command" || fail "there is no command $command; fir help lists those that there are"
name="fir $command"
open_input
read_usage
take_arguments "${@:2}"
take_words
(cd "$root" && make_program) || exit
if [ "$command" = sheet ]; then
    make_sheet
    words=("$root/target/commands/sheet" "${words[@]}")
fi
[ -z "$reads" ] || [ ! -t 0 ] || say "reading from the terminal"
shopt -s execfail
exec "$program" "$command" "${options[@]}" -- "${words[@]}"
fail "$program is gone; call again"
