# shellcheck shell=bash
# Completion of the command line of xm_run for bash: the words of each command, and files by their kinds. It is for the
# package bash-completion, which loads it and has the functions that it calls.

# Files of a kind, by the end of their names, and folders; where there is neither, or no kind, all files.
_xm_run_files() {
    _filedir "$@"
    ((${#COMPREPLY[@]} > 0)) || _filedir
}

_xm_run_words() {
    mapfile -t COMPREPLY < <(compgen -W "$1" -- "$cur")
}

# The file of a word P=FILE. To readline it begins after the `=`.
_xm_run_part_file() {
    if [[ $cur == *=* ]]; then
        cur=${cur#*=}
        _xm_run_files "$@"
    fi
}

# What follows an option: a number, or a file, which has a partition before it in the words of `run`.
_xm_run_after_option() {
    case $command:$prev in
        run:--frames | run:--ticks) ;;
        run:--input | run:--core) _xm_run_part_file ;;
        run:--script) _xm_run_part_file scr ;;
        run:--upset | run:--from | run:--save) _xm_run_files ;;
        alone:--input | alone:--core | alone:--upset) _xm_run_files ;;
        *) return 1 ;;
    esac
}

# The options that may follow: those of partitions, but no input and no script beside `--from`; the others once each.
_xm_run_run_options() {
    local option given=" ${words[*]} " options='--core'
    [[ $given == *' --from '* ]] || options+=' --input --script'
    [[ $given == *' --frames '* || $given == *' --ticks '* ]] || options+=' --frames --ticks'
    for option in --upset --save; do
        [[ $given == *" $option "* ]] || options+=" $option"
    done
    [[ $given == *' --from '* || $given == *' --input '* || $given == *' --script '* ]] || options+=' --from'
    _xm_run_words "$options"
}

_xm_run_run() {
    case $place in
        0) _xm_run_files xmp ;;
        *)
            _xm_run_after_option && return
            _xm_run_run_options
            ;;
    esac
}

_xm_run_alone() {
    local option options=''
    case $place in
        0) _xm_run_files xmp ;;
        1) ;;
        2) _xm_run_files scr ;;
        *)
            _xm_run_after_option && return
            for option in --input --core --upset; do
                [[ " ${words[*]} " == *" $option "* ]] || options+=" $option"
            done
            _xm_run_words "$options"
            ;;
    esac
}

# The words of the commands that have two: what is done, and on what.
_xm_run_two_words() {
    case "$command ${words[2]}:$((place - 1))" in
        'xmeformat build:0') _xm_run_files elf ;;
        'xmeformat build:1' | 'xmeformat read:0') _xm_run_files xef ;;
        'xmpack build:0' | 'xmcparser upgrade:0' | 'xmcparser upgrade:1') _xm_run_files xmc ;;
        'xmpack build:1' | 'xmpack list:0' | 'xmpack check:0') _xm_run_files xmp ;;
        'xmpack build:'*) _xm_run_part_file xef ;;
        'plan make:0' | 'plan check:0') _xm_run_files xml ;;
    esac
}

_xm_run_flows() {
    local files
    case $place:${words[2]} in
        0:-*) _xm_run_words --steering ;;
        0:*)
            _xm_run_files xml
            files=("${COMPREPLY[@]}")
            _xm_run_words --steering
            COMPREPLY+=("${files[@]}")
            ;;
        1:--steering) _xm_run_files xml ;;
    esac
}

_xm_run_xmcparser() {
    local files
    case $place:${words[2]} in
        0:*)
            _xm_run_files xml
            files=("${COMPREPLY[@]}")
            _xm_run_words upgrade
            COMPREPLY+=("${files[@]}")
            ;;
        *:upgrade) _xm_run_two_words ;;
        1:*) _xm_run_files xmc ;;
    esac
}

_xm_run() {
    local cur prev words cword
    _init_completion -n = || return
    local command=${words[1]} place=$((cword - 2))
    case $((cword)):$command in
        1:*) _xm_run_words 'bare xmcparser xmeformat xmpack plan flows gen run alone --help --version' ;;
        *:bare) ((place > 0)) || _xm_run_files bin ;;
        *:xmcparser) _xm_run_xmcparser ;;
        2:xmeformat) _xm_run_words 'build read' ;;
        2:xmpack) _xm_run_words 'build list check' ;;
        2:plan) _xm_run_words 'make check' ;;
        *:xmeformat | *:xmpack | *:plan) _xm_run_two_words ;;
        *:flows) _xm_run_flows ;;
        *:run) _xm_run_run ;;
        *:alone) _xm_run_alone ;;
    esac
} && complete -F _xm_run xm_run
