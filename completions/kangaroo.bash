# Made by launcher/make_completions from the help texts: edit what it reads, and not this.
_kangaroo() {
    local word=${COMP_WORDS[COMP_CWORD]} before=${COMP_WORDS[COMP_CWORD - 1]} command= at
    local wanted=
    COMPREPLY=()
    # the words of --name=value come apart at the sign
    if [[ $word == = ]]; then
        word=
    elif [[ $before == = ]]; then
        before=${COMP_WORDS[COMP_CWORD - 2]}
    fi
    for ((at = 1; at < COMP_CWORD; at++)); do
        case ${COMP_WORDS[at]} in
            script | check | judge | show | run | serve-load | help) command=${COMP_WORDS[at]}; break ;;
        esac
    done
    case $command:$before in
        check:--picture | judge:--picture | judge:--trace | judge:--junit | judge:--html |\
            run:--trace) wanted=files ;;
        run:--device | serve-load:--device) wanted=folders ;;
        judge:--at-least | judge:--skew | judge:--keys | judge:--window | show:--key |\
            run:--lanes | run:--sets | run:--memory | run:--segments | run:--segment-pages |\
            run:--entries | run:--threshold | run:--admit | run:--callers | run:--operations |\
            run:--keys | run:--value-bytes | run:--gets | run:--removes | run:--workers |\
            run:--seed | run:--ttl | serve-load:--lanes | serve-load:--sets | serve-load:--memory |\
            serve-load:--segments | serve-load:--segment-pages | serve-load:--entries | serve-load:--threshold | serve-load:--admit |\
            serve-load:--shards | serve-load:--leases | serve-load:--bring-back | serve-load:--size | serve-load:--memory-bytes |\
            serve-load:--callers | serve-load:--operations | serve-load:--keys | serve-load:--value-bytes | serve-load:--gets |\
            serve-load:--removes | serve-load:--workers | serve-load:--seed | serve-load:--ttl | serve-load:--seconds) wanted=nothing ;;
    esac
    if [[ -z $wanted && $word == -* ]]; then
        case $command in
            '') COMPREPLY=($(compgen -W '--unproved -h --help -V --version' -- "$word")) ;;
            script) COMPREPLY=($(compgen -W '-h --help' -- "$word")) ;;
            check) COMPREPLY=($(compgen -W '--explain --json --picture -h --help' -- "$word")) ;;
            judge) COMPREPLY=($(compgen -W '--explain --json --picture --all --trace --junit --html --at-least --skew --warm --keys --skip-bad --window -h --help' -- "$word")) ;;
            show) COMPREPLY=($(compgen -W '--key -h --help' -- "$word")) ;;
            run) COMPREPLY=($(compgen -W '--device --trace --json -h --help --lanes --sets --memory --segments --segment-pages --entries --threshold --admit --callers --operations --keys --value-bytes --gets --removes --workers --seed --ttl' -- "$word")) ;;
            serve-load) COMPREPLY=($(compgen -W '--device --json -h --help --lanes --sets --memory --segments --segment-pages --entries --threshold --admit --shards --leases --bring-back --size --memory-bytes --callers --operations --keys --value-bytes --gets --removes --workers --seed --ttl --seconds --zipf' -- "$word")) ;;
        esac
        return
    fi
    if [[ -z $wanted ]]; then
        case $command in
            '') COMPREPLY=($(compgen -W 'script check judge show run serve-load help' -- "$word")); return ;;
            help) COMPREPLY=($(compgen -W 'script check judge show run serve-load help' -- "$word")); return ;;
            check) wanted=files ;;
            judge) wanted=files ;;
            show) wanted=files ;;
        esac
    fi
    case $wanted in
        files) compopt -o filenames 2>/dev/null; mapfile -t COMPREPLY < <(compgen -f -- "$word") ;;
        folders) compopt -o filenames 2>/dev/null; mapfile -t COMPREPLY < <(compgen -d -- "$word") ;;
    esac
}
# kangaroo-judge of a release is kangaroo judge
_kangaroo_judge() {
    local COMP_WORDS=(kangaroo judge "${COMP_WORDS[@]:1}") COMP_CWORD=$((COMP_CWORD + 1))
    _kangaroo
}
complete -F _kangaroo kangaroo ./kangaroo
complete -F _kangaroo_judge kangaroo-judge
