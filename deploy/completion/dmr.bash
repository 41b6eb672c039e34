# Completion for bash of the words that the commands of this package take. bash-completion loads it by the name of a command. `ci/write-manual --completion`
# prints it with what `@` stands for: the options of commands by their help, and the words of the console.

# Prints the options of a command.
_dmr_options() {
    case $1 in
        dmr_decode) echo --fields --site --help ;;
        @options
    esac
}

# Prints the words that may stand where no option does.
_dmr_words() {
    case $1 in
        dmr_decode) [ "$2" -eq 1 ] && echo carrier site word pdu replay script journal write ;;
        dmr_console) echo @console ;;
    esac
}

# Completes a file: all of them, or directories and those of one kind.
_dmr_files() {
    local kind=$1 word=$2
    compopt -o filenames
    if [ -n "$kind" ]; then
        mapfile -t COMPREPLY < <(compgen -d -- "$word"; compgen -f -X "!*.$kind" -- "$word")
    else
        mapfile -t COMPREPLY < <(compgen -f -- "$word")
    fi
}

_dmr() {
    local command=${1##*/} word=$2 before=$3
    case $before in
        --site) _dmr_files toml "$word" ;;
        --config) _dmr_files toml "$word" ;;
        --records) _dmr_files db "$word" ;;
        --names) _dmr_files csv "$word" ;;
        --script | --printed) _dmr_files txt "$word" ;;
        --folder) compopt -o filenames; mapfile -t COMPREPLY < <(compgen -d -- "$word") ;;
        --out | --socket | --hub) _dmr_files "" "$word" ;;
        --program | --decoder | --controller | --command) mapfile -t COMPREPLY < <(compgen -c -- "$word") ;;
        --link-version) mapfile -t COMPREPLY < <(compgen -W "1 2" -- "$word") ;;
        --format) mapfile -t COMPREPLY < <(compgen -W "table csv json" -- "$word") ;;
        --cause) mapfile -t COMPREPLY < <(compgen -W "hang_time maximum radio_left dropped ended_by_operator carrier_lost" -- "$word") ;;
        --row)
            local rows="hello frames bits codewords reach transmits pace active pieces done next again numbers fallback return at-once died refused beside"
            mapfile -t COMPREPLY < <(compgen -W "$rows" -- "$word")
            ;;
        --calls) mapfile -t COMPREPLY < <(compgen -W "text csv json" -- "$word") ;;
        --terms | --wait | --every | --seconds | --polls | --seed | --radios | --carriers | --port | --pid | --page | --troubles | --start | --from | --to | --tcp | --console | --radio | --group | --carrier | --last | --older-days | --keep-days | --within | --back | --calls-an-hour | --share | --limit | --slots) COMPREPLY=() ;;
        *)
            if [ "$command" = dmr_check ] && [ "${word#-}" = "$word" ]; then
                _dmr_files toml "$word"
            else
                mapfile -t COMPREPLY < <(compgen -W "$(_dmr_options "$command") $(_dmr_words "$command" "$COMP_CWORD")" -- "$word")
            fi
            ;;
    esac
}

complete -F _dmr dmr_trunk dmr_decode dmr_siteview dmr_timeline dmr_callbook dmr_report dmr_archive dmr_carriers dmr_conform dmr_check dmr_restart dmr_hub dmr_console
