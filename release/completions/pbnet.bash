# Completions of pbnet for bash. scripts/manual.py made them from the help of pbnet 0.20.0.

# Sets `options` to the options of the command $1, and `places` to what each of its arguments can be: words, or @file.
# Sets `repeats` if the last argument can be repeated.
_pbnet_command()
{
    case $1 in
        '')
            options='-h --help -V --version'
            places=('flat check step run control tree survive diff draw report trace show init help')
            ;;
        flat)
            options='-h --help'
            places=('')
            ;;
        check)
            options='--strict --settle --ticks --all --format -h --help'
            places=(@file)
            ;;
        step)
            options='--test --format -h --help'
            places=(@file)
            ;;
        run)
            options='--seconds --progress --control --settle --linger --allow-network --format --strict -h --help'
            places=(@file)
            ;;
        control)
            options='-h --help'
            places=(@file '')
            repeats=1
            ;;
        tree)
            options='--down --format --ticks -h --help'
            places=(@file)
            ;;
        survive)
            options='--pairs --bridges --own --service --from --accept --strict --print-accept --all-failures --down --format --ticks -h --help'
            places=(@file)
            ;;
        diff)
            options='--pairs --bridges --service --all-failures --format --ticks -h --help'
            places=('' '')
            ;;
        draw)
            options='--service --down --lists --format -o --output --ticks -h --help'
            places=(@file)
            ;;
        report)
            options='--pairs --bridges --diff -o --output --ticks -h --help'
            places=(@file)
            ;;
        trace)
            options='--to --from --ctag --pcp --bpdu --ethertype --length --then --down --format --settle --ticks -h --help'
            places=(@file '' '')
            ;;
        show)
            options='-h --help'
            places=()
            ;;
        init)
            options='--line --ring --star --dual-homed --services -h --help'
            places=()
            ;;
        help)
            places=('flat check step run control tree survive diff draw report trace show init')
            ;;
    esac
}

# Sets `follows` to what each value of the option $2 of the command $1 can be.
_pbnet_option()
{
    case "$1 $2" in
        'check --ticks') follows=('') ;;
        'check --format') follows=('text json') ;;
        'step --format') follows=('text json csv') ;;
        'run --seconds') follows=('') ;;
        'run --control') follows=(@file) ;;
        'run --linger') follows=('') ;;
        'run --format') follows=('text json csv') ;;
        'tree --down') follows=('') ;;
        'tree --format') follows=('text json') ;;
        'tree --ticks') follows=('') ;;
        'survive --service') follows=('') ;;
        'survive --from') follows=('') ;;
        'survive --accept') follows=(@file) ;;
        'survive --down') follows=('') ;;
        'survive --format') follows=('text json csv') ;;
        'survive --ticks') follows=('') ;;
        'diff --service') follows=('') ;;
        'diff --format') follows=('text json') ;;
        'diff --ticks') follows=('') ;;
        'draw --service') follows=('') ;;
        'draw --down') follows=('') ;;
        'draw --format') follows=('svg dot') ;;
        'draw -o' | 'draw --output') follows=(@file) ;;
        'draw --ticks') follows=('') ;;
        'report --diff') follows=('') ;;
        'report -o' | 'report --output') follows=(@file) ;;
        'report --ticks') follows=('') ;;
        'trace --to') follows=('') ;;
        'trace --from') follows=('') ;;
        'trace --ctag') follows=('') ;;
        'trace --pcp') follows=('') ;;
        'trace --ethertype') follows=('') ;;
        'trace --length') follows=('') ;;
        'trace --then') follows=('' '') ;;
        'trace --down') follows=('') ;;
        'trace --format') follows=('text json svg') ;;
        'trace --ticks') follows=('') ;;
        'init --line') follows=('') ;;
        'init --ring') follows=('') ;;
        'init --star') follows=('') ;;
        'init --dual-homed') follows=('') ;;
        'init --services') follows=('') ;;
    esac
}

# Completes the word $1, which can be a file if $2 is @file, or else one of the words of $2.
_pbnet_offer()
{
    local before=
    case $1 in --*=*) before=${1%%=*}= ;; esac
    if [ "$2" = @file ]; then
        # (names in quotes are left to readline)
        compopt -o filenames -o default 2>/dev/null
        mapfile -t COMPREPLY < <(compgen -f -P "$before" -- "${1#"$before"}")
    else
        mapfile -t COMPREPLY < <(compgen -W "$2" -P "$before" -- "${1#"$before"}")
    fi
}

_pbnet()
{
    local current=$2 line=$COMP_LINE rest word command='' options='' repeats='' is_plain='' at=0
    local words=() places=() follows=()
    # (COMP_WORDS is split at `=` and `:` too)
    for word in "${COMP_WORDS[@]:0:COMP_CWORD+1}"; do
        rest=${line#"${line%%[![:space:]]*}"}
        if [ "${#words[@]}" -gt 0 ] && [ "$rest" = "$line" ]; then
            words[-1]+=$word
        else
            words+=("$word")
        fi
        line=${rest#"$word"}
    done
    _pbnet_command ''
    for word in "${words[@]:1:${#words[@]}-2}"; do
        if [ "${#follows[@]}" -gt 0 ]; then
            follows=("${follows[@]:1}")
        elif [ -z "$is_plain" ] && [ "$word" = -- ]; then
            is_plain=1
        elif [ -z "$is_plain" ] && [[ $word == -* ]]; then
            _pbnet_option "$command" "$word"
        elif [ -z "$command" ]; then
            command=$word options='' places=()
            _pbnet_command "$command"
        else
            at=$((at + 1))
        fi
    done
    word=${words[-1]}
    [ "$current" != = ] || current=
    [ -z "$repeats" ] || [ "$at" -lt "${#places[@]}" ] || at=$((${#places[@]} - 1))
    if [ "${#follows[@]}" -gt 0 ]; then
        _pbnet_offer "$current" "${follows[0]}"
    elif [ -z "$is_plain" ] && [[ $word == --*=* ]]; then
        _pbnet_option "$command" "${word%%=*}"
        _pbnet_offer "$current" "${follows[0]-}"
    elif [ -z "$is_plain" ] && [[ $word == -* || $at -ge ${#places[@]} ]]; then
        _pbnet_offer "$current" "$options"
    else
        _pbnet_offer "$current" "${places[at]-}"
    fi
}

complete -F _pbnet pbnet
