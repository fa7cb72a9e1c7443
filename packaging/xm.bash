# shellcheck shell=bash
# Completion of the command line of xm for bash: its commands, their options, and files by their kinds. It is for the package
# bash-completion, which loads it and has the functions that it calls.

# Files of some kinds, by the ends of their names, and folders; where there is none, all files.
_xm_files() {
    _filedir "$@"
    ((${#COMPREPLY[@]} > 0)) || _filedir
}

_xm_words() {
    mapfile -t COMPREPLY < <(compgen -W "$1" -- "$cur")
}

# What the word at a place of a command is.
_xm_place() {
    case $1:$2 in
        check-description:0 | flows:0 | build:0) _xm_files xml ;;
        build:1 | run:0) _filedir -d ;;
        core:1) _xm_files elf ;;
        script:0) _xm_words 'show make' ;;
        campaign:0) _xm_files toml ;;
        campaign:2) _xm_files html ;;
        campaign:3) _filedir -d ;;
        view:0 | picture:0) _xm_files '@(xml|xmp)' ;;
        script:2) _xm_files scr ;;
        picture:2) _xm_files svg ;;
        view:2) _xm_files html ;;
        *) _filedir ;;
    esac
}

# What follows an option of a command.
_xm_value() {
    case $1 in
        --names | --system) _xm_files '@(xml|xmp)' ;;
        --script) _xm_files scr ;;
        --keep | --scratch) _filedir -d ;;
        --csv | --table | --repeat | --results) _xm_files sqlite ;;
        --from) [[ $2 != run ]] || _filedir ;;
        --frames | --ticks | --to | --workers | --scheduler) ;;
        *) _filedir ;;
    esac
}

_xm_options() {
    case $1 in
        run) _xm_words '--frames --ticks --input --core --script --upset --from --save --report' ;;
        expect) _xm_words '--names --junit' ;;
        compare) _xm_words '--names' ;;
        export) _xm_words '--json --csv --vcd --perfetto --system' ;;
        picture) _xm_words '--from --to' ;;
        view) _xm_words '--script --from --to' ;;
        campaign) _xm_words '--report --table --csv --repeat --results --keep --workers --scheduler --scratch' ;;
    esac
}

_xm() {
    local cur prev words cword
    _init_completion || return
    local command=${words[1]}
    if ((cword == 1)); then
        _xm_words 'check-description why build run core script flows expect compare export campaign picture view --help'
    elif [[ $prev == --* && $command != export ]] || [[ $prev == --system ]]; then
        _xm_value "$prev" "$command"
    elif [[ $cur == --* ]]; then
        _xm_options "$command"
    else
        _xm_place "$command" "$((cword - 2))"
    fi
} && complete -F _xm xm
