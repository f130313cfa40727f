# Completion of the program sharing, for bash. It needs nothing but bash 4; where the package bash-completion is
# there, its way of completing files is taken. Commands and options are held to the program's own by tests/man.
# shellcheck shell=bash

_sharing_files() { # [-d], for folders alone
    if declare -F _filedir >/dev/null; then
        _filedir "$@"
    else
        mapfile -t COMPREPLY < <(compgen "${1:--f}" -- "$cur")
        compopt -o filenames 2>/dev/null
    fi
}

_sharing_words() { mapfile -t COMPREPLY < <(compgen -W "$1" -- "$cur"); }

_sharing() {
    local cur=${COMP_WORDS[COMP_CWORD]} prev=${COMP_WORDS[COMP_CWORD - 1]} command=${COMP_WORDS[1]} options part=
    COMPREPLY=()
    if [ "$COMP_CWORD" -eq 1 ]; then
        _sharing_words 'scheme pool split prefix reconstruct rebuild check archive --help --version -h'
        return
    fi
    case $command in
    scheme) options='--range --first --length --unpadded --checked --picture' ;;
    split) options='--scheme --unpadded --label --checked --pool' ;;
    prefix) options='--about --scheme --length --readers' ;;
    reconstruct) options='--about --scheme --length --checked --range --first' ;;
    rebuild) options='--about --scheme --party --held' ;;
    check) options='--about --scheme' ;;
    pool | archive) options= ;;
    *) return ;;
    esac

    # bash takes = for a word of its own, unless the user has told it not to. What stands before it decides what may
    # come after it: an option, or the number of a party, which has a file.
    if [ "$cur" = '=' ] && [ "$COMP_CWORD" -gt 2 ]; then
        cur=
    elif [ "$prev" = '=' ] && [ "$COMP_CWORD" -gt 3 ]; then
        prev=${COMP_WORDS[COMP_CWORD - 2]}
    elif [[ $cur == *=* ]]; then
        part=${cur%%=*}=
        prev=${cur%%=*} cur=${cur#*=}
    fi

    case $prev in
    --pool) _sharing_files -d ;;
    --about | --held | --picture) _sharing_files ;;
    --scheme | --range | --first | --length | --label | --readers | --party) ;;
    *)
        case $cur in
        -*) _sharing_words "$options --help -h" ;;
        *)
            case $command,$COMP_CWORD in
            pool,2) _sharing_words 'new status' ;;
            archive,2) _sharing_words 'write list entry' ;;
            scheme,*) ;;
            *) _sharing_files ;;
            esac
            ;;
        esac
        ;;
    esac
    # With = inside the word, what is offered takes the place of the whole word.
    if [ -n "$part" ]; then COMPREPLY=("${COMPREPLY[@]/#/$part}"); fi
}

complete -F _sharing sharing
