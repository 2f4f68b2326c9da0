# Completions of print1525 for bash. Made by tools/manual.
_print1525() {
    local word=${COMP_WORDS[COMP_CWORD]} before=${COMP_WORDS[COMP_CWORD - 1]} command=${COMP_WORDS[1]} words=
    COMPREPLY=()
    if [ "$COMP_CWORD" = 1 ]; then
        mapfile -t COMPREPLY < <(compgen -W 'pages bus check decode raw help -h --help -V --version' -- "$word")
        return
    fi
    if [ "$command" = help ]; then
        [ "$COMP_CWORD" = 2 ] && mapfile -t COMPREPLY < <(compgen -W 'pages bus check decode raw' -- "$word")
        return
    fi
    if [ "$word" = = ]; then
        word=
    elif [ "$before" = = ]; then
        before=${COMP_WORDS[COMP_CWORD - 2]}
    fi
    case $command/$before in
        pages/--from) words='auto text prg petcat magazine basic bas' ;;
        pages/--steps) return ;;
        pages/--present) words='none 4 5 both' ;;
        pages/--delays) return ;;
        pages/--status) words='each kept' ;;
        pages/--as) words='list text svg png pdf bytes script' ;;
        pages/--device) words='4 5' ;;
        pages/--sheet) return ;;
        pages/--scale) return ;;
        pages/--top) return ;;
        pages/--paper) words='continuous a4 letter' ;;
        bus/--from) words='auto text prg petcat magazine basic bas' ;;
        bus/--steps) return ;;
        bus/--present) words='none 4 5 both' ;;
        bus/--delays) return ;;
        bus/--status) words='each kept' ;;
        bus/--as) words='text vcd script' ;;
        check/--from) words='auto text vcd csv' ;;
        check/--names) return ;;
        check/--from-time) return ;;
        check/--glitch) return ;;
        check/--rate) return ;;
        check/--threshold) return ;;
        check/--as) words='frames story json' ;;
        decode/--from) words='auto text vcd csv' ;;
        decode/--names) return ;;
        decode/--from-time) return ;;
        decode/--glitch) return ;;
        decode/--rate) return ;;
        decode/--threshold) return ;;
        decode/--as) words='list text svg png pdf json bytes' ;;
        decode/--device) words='4 5' ;;
        decode/--sheet) return ;;
        decode/--scale) return ;;
        decode/--top) return ;;
        decode/--paper) words='continuous a4 letter' ;;
        decode/--bounds) words='profile guide' ;;
        decode/--listening) return ;;
        decode/--set) words='upper lower' ;;
        raw/--set) words='upper lower' ;;
        raw/--as) words='list text svg png pdf' ;;
        raw/--device) words='4 5' ;;
        raw/--sheet) return ;;
        raw/--scale) return ;;
        raw/--top) return ;;
        raw/--paper) words='continuous a4 letter' ;;
        */-o | */--output) ;;
        *)
            if [[ $word == -* ]]; then
                case $command in
                pages) words='-o --output --from --steps --present --delays --status --as --explain -q --quiet --device --sheet --scale --top --paper --holes --characters -h --help' ;;
                bus) words='-o --output --from --steps --present --delays --status --as --explain -q --quiet -h --help' ;;
                check) words='-o --output --from --names --invert --from-time --glitch --rate --threshold --as --explain -q --quiet -h --help' ;;
                decode) words='-o --output --from --names --invert --from-time --glitch --rate --threshold --as --explain -q --quiet --device --sheet --scale --top --paper --holes --characters --intervals --bounds --listening --set --strict -h --help' ;;
                raw) words='-o --output --set --as --explain -q --quiet --device --sheet --scale --top --paper --holes --characters -h --help' ;;
                esac
            fi
            ;;
    esac
    if [ -n "$words" ]; then
        mapfile -t COMPREPLY < <(compgen -W "$words" -- "$word")
    else
        compopt -o filenames 2> /dev/null
        mapfile -t COMPREPLY < <(compgen -f -- "$word")
    fi
}
complete -F _print1525 print1525
