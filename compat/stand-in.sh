# What pokit's stand-ins for GNU's programs share; each of them reads this file.
pokit='@BINDIR@/pokit'

say() { printf '%s\n' "$tool (pokit): $1" >&2; }

# needs PROGRAM..: ends the script where one of these isn't there.
needs() {
    for needed; do
        command -v "$needed" > /dev/null || { say "this needs $needed, which isn't on PATH"; exit 1; }
    done
}

# gnu NAME: sets program to the path of GNU's program of that name, past the stand-ins on PATH; false where there is
# none.
gnu() {
    folders=$PATH:
    while [ -n "$folders" ]; do
        program=${folders%%:*} folders=${folders#*:}
        program=${program:-.}/$1
        [ -f "$program" ] && [ -x "$program" ] || continue
        # (a shell reads byte by byte, so what no stand-in can be isn't read)
        [ -h "$program" ] || [ -e "${program%/*}/stand-in.sh" ] || [ "$program" -ef "$0" ] || return 0
        { read -r first; read -r second; } < "$program" 2> /dev/null
        case $first$second in '#!'*"pokit's stand-in for GNU's"*) ;; *) return 0 ;; esac
    done
    return 1
}

# (msgfmt reads its arguments itself, and is run so often that what it doesn't need would be felt)
[ "$tool" != msgfmt ] || return 0

# is_ours OPTION: whether pokit's tool has that option, of more than one letter.
is_ours() { case " $options " in *" ${1%%=*} "*) ;; *) return 1 ;; esac; }

# are_ours LETTERS: whether it has each of these options of one letter; the value of one may follow it, or is the next
# word, which is skipped then.
are_ours() {
    rest=$1
    while [ -n "$rest" ]; do
        letter=${rest%"${rest#?}"} rest=${rest#?}
        case $letters in
            *"$letter:"*) [ -n "$rest" ] || skipped=1; return ;;
            *"$letter"*) ;;
            *) return 1 ;;
        esac
    done
}

# Whether the options of GNU's tool end before its first operand.
case $tool in gettext | ngettext) stops=1 ;; *) stops= ;; esac

# all_ours WORD..: whether pokit's tool takes all words as GNU's does: it has each option, none stands where GNU's takes
# it for an operand, msgunfmt has one file at most, and the count of ngettext, its last operand, is of digits.
all_ours() {
    skipped= operand= only_operands=
    for word; do
        if [ -n "$skipped" ]; then
            skipped=
            continue
        fi
        [ -z "$operand" ] || [ -z "$stops" ] || case $only_operands$word in -?*) return 1 ;; esac
        case $only_operands$word in
            --) only_operands=x ;;
            --domain | --context) skipped=1 ;;
            --*) is_ours "$word" || return ;;
            -?*) are_ours "${word#-}" || return ;;
            *)
                [ "$tool" != msgunfmt ] || [ -z "$operand" ] || return 1
                operand=x$word ;;
        esac
    done
    [ "$tool" != ngettext ] || case ${operand#x} in *[!0-9]*) return 1 ;; esac
}

# is_utf8: whether messages are asked for in UTF-8, or the machine doesn't say in which charset.
is_utf8() {
    case ${LC_ALL:-${LC_MESSAGES:-$LANG}} in '' | C | POSIX) return 0 ;; esac
    case ${OUTPUT_CHARSET:-${LC_ALL:-${LC_CTYPE:-$LANG}}} in
        *[Uu][Tt][Ff]-8* | *[Uu][Tt][Ff]8*) return 0 ;;
    esac
    [ -z "$OUTPUT_CHARSET" ] || return 1
    # (without that program GNU's, if it is there, has to tell)
    command -v locale > /dev/null || return 1
    # (of a locale that isn't there it says that, in words)
    case $(locale charmap 2>&1) in UTF-8 | '' | *' '*) ;; *) return 1 ;; esac
}

# run_tool WORD..: has pokit do it, or GNU's program where pokit would do it otherwise and GNU's is there.
run_tool() {
    ours=1
    all_ours "$@" || ours=
    [ -z "$stops" ] || is_utf8 || ours=
    [ -n "$ours" ] || { gnu "$tool" && exec "$program" "$@"; }
    case $1 in -V | --version) echo "$tool (pokit's stand-in for GNU gettext) 0.21"; exit ;; esac
    exec "$pokit" "$tool" "$@"
}
