# Completion of bash for pokit. Where nothing is listed, as for files, bash completes by itself.
_pokit() {
    local word=${COMP_WORDS[COMP_CWORD]} before=${COMP_WORDS[COMP_CWORD - 1]} options=
    local tools="msgfmt msgunfmt msgattrib msgcat gettext ngettext envsubst"
    COMPREPLY=()
    if [ "$COMP_CWORD" -eq 1 ]; then
        COMPREPLY=($(compgen -W "$tools help -h --help" -- "$word"))
        return
    fi
    # (the sign between an option and its value is a word of its own)
    if [ "$word" = = ]; then
        word=
    elif [ "$before" = = ]; then
        before=${COMP_WORDS[COMP_CWORD - 2]}
    fi
    case $before in
        --endianness)
            COMPREPLY=($(compgen -W "little big" -- "$word"))
            return ;;
        -d | --domain | -c | --context | --more-than | --less-than)
            compopt +o default 2> /dev/null
            return ;;
    esac
    case ${COMP_WORDS[1]} in
        msgfmt) options="-o --output-file -f --use-fuzzy --statistics --endianness --no-hash \
                --profile-check -h --help" ;;
        msgunfmt) options="-o --output-file --no-wrap -h --help" ;;
        msgattrib) options="-o --output-file --no-wrap --translated --untranslated --no-fuzzy --only-fuzzy \
                --no-obsolete --only-obsolete --set-fuzzy --clear-fuzzy --set-obsolete \
                --clear-obsolete --clear-previous --empty --fuzzy --obsolete -h --help" ;;
        msgcat) options="-o --output-file --no-wrap --more-than --less-than -u --unique --use-first -h \
                --help" ;;
        gettext) options="-d --domain -c --context -e -E -n -s -h --help" ;;
        ngettext) options="-d --domain -c --context -e -E -h --help" ;;
        envsubst) options="-v --variables -h --help" ;;
        help) options=$tools ;;
    esac
    case $word,${COMP_WORDS[1]} in
        -*,* | *,help) COMPREPLY=($(compgen -W "$options" -- "$word")) ;;
    esac
}
complete -o default -F _pokit pokit
