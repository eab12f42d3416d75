# Completion of warintaya for bash.

# The options of a subcommand.
_warintaya_options() {
    local station='--mode --layer --modulation --rate --segments'
    case $1 in
    code) echo "$station -i -o --state --fill --exact --resync --stuff --guard --keep-every --quiet --help" ;;
    back) echo "$station -i -o --state --slots --leave-out-lost --keep-padding --json --fail-on-loss --keep-every --quiet --help" ;;
    replace) echo '--state --layer --packet --old --new --unchecked --frame -i -o --quiet --help' ;;
    frames) echo "$station --guard --help" ;;
    demo) echo '--help' ;;
    help) echo 'code back replace frames demo' ;;
    esac
}

# The words that can stand behind an option; nothing where any can.
_warintaya_values() { # SUBCOMMAND OPTION
    case $2 in
    --mode) echo '1 2 3' ;;
    --modulation) echo 'qpsk 16qam 64qam' ;;
    --rate) echo '1/2 2/3 3/4 5/6 7/8' ;;
    --segments) echo '1 2 3 4 5 6 7 8 9 10 11 12 13' ;;
    --guard) echo '1/4 1/8 1/16 1/32' ;;
    --layer) if [ "$1" = replace ]; then echo 'A B C'; else echo 'A= B= C='; fi ;;
    esac
}

_warintaya() {
    local word=${COMP_WORDS[COMP_CWORD]} before=${COMP_WORDS[COMP_CWORD - 1]} sub=${COMP_WORDS[1]} first values
    COMPREPLY=()
    if [ "$COMP_CWORD" -eq 1 ]; then
        mapfile -t COMPREPLY < <(compgen -W 'code back replace frames demo help --help --version' -- "$word")
        return
    fi
    # 'A=small.ts' is three words here: A, = and what follows
    if [ "$word" = = ]; then word='' first=${COMP_WORDS[COMP_CWORD - 2]}; fi
    if [ "$before" = = ]; then first=${COMP_WORDS[COMP_CWORD - 3]}; fi
    case ${first:-$before} in
    -i | -o | --state | --old | --new | --json)
        compopt -o filenames
        mapfile -t COMPREPLY < <(compgen -f -- "$word")
        return
        ;;
    --packet | --frame | --keep-every) return ;;
    esac
    if [ "${first:-}" = --layer ]; then
        compopt -o nospace
        mapfile -t COMPREPLY < <(compgen -W "$(printf '%s ' {qpsk,16qam,64qam},{1/2,2/3,3/4,5/6,7/8},)" -- "$word")
        return
    fi
    values=$(_warintaya_values "$sub" "$before")
    case $values in *=) compopt -o nospace ;; esac
    mapfile -t COMPREPLY < <(compgen -W "${values:-$(_warintaya_options "$sub")}" -- "$word")
}
complete -F _warintaya warintaya
