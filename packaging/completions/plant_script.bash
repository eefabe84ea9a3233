# Completion of plant_script. tools/run completions writes this file from the help of the program; do not edit it.
_plant_script() {
    local command='' words='' at
    local word=${COMP_WORDS[COMP_CWORD]} before=${COMP_WORDS[COMP_CWORD - 1]}
    COMPREPLY=()
    case $before in
    --input)
        compopt -o filenames
        mapfile -t COMPREPLY < <(compgen -f -- "$word")
        return
        ;;
    --state)
        compopt -o filenames
        mapfile -t COMPREPLY < <(compgen -d -- "$word")
        return
        ;;
    esac
    for ((at = 1; at < COMP_CWORD; at++)); do
        case ${COMP_WORDS[at]} in
        one | check | run | threads | capture | serve | trace | history | resume | restore | snapshot | help)
            command=${COMP_WORDS[at]}
            break
            ;;
        esac
    done
    case $command in
    '') words='one check run threads capture serve trace history resume restore snapshot help --input --json --strict --state --snapshot-every -h --help -V --version' ;;
    one) words='--input -h --help' ;;
    check) words='--input --json --strict -h --help' ;;
    run) words='--input --json -h --help' ;;
    threads) words='--input -h --help' ;;
    capture) words='--input -h --help' ;;
    serve) words='--input --json --state --snapshot-every -h --help' ;;
    trace) words='--input --json -h --help' ;;
    history) words='--input -h --help' ;;
    resume) words='--input -h --help' ;;
    restore) words='--input -h --help' ;;
    snapshot) words='--input -h --help' ;;
    help) words='one check run threads capture serve trace history resume restore snapshot help' ;;
    esac
    mapfile -t COMPREPLY < <(compgen -W "$words" -- "$word")
}
complete -F _plant_script plant_script
