# Completion of cq for bash.

# Adds each line of the input that begins with the word to complete. Nothing in a line is expanded.
_cq_offer() {
    local line
    while IFS= read -r line; do
        [[ $line != "$1"* ]] || COMPREPLY+=("$line")
    done
}

_cq() {
    local word=${COMP_WORDS[COMP_CWORD]} command=${COMP_WORDS[1]} folder=${COMP_WORDS[2]}
    folder=${folder/#\~\//$HOME/}
    COMPREPLY=()
    if [ "$COMP_CWORD" = 1 ]; then
        _cq_offer "$word" < <(printf '%s\n' echo cycle race explain init new write log read take drop trim name migrate stat check dump salvage repair help --help --version)
    elif [ "${word#-}" != "$word" ]; then
        _cq_offer "$word" <<<--help
        case $command in
        new) _cq_offer "$word" < <(printf '%s\n' --roll --cells --cycles) ;;
        write) _cq_offer "$word" < <(printf '%s\n' --null --whole) ;;
        read) _cq_offer "$word" < <(printf '%s\n' --back --from --limit --last --since --until --text --null --hex --json --follow --for) ;;
        take) _cq_offer "$word" < <(printf '%s\n' --limit --peek --wait) ;;
        trim) _cq_offer "$word" < <(printf '%s\n' --keep --before --force --dry-run) ;;
        stat) _cq_offer "$word" <<<--json ;;
        log) _cq_offer "$word" < <(printf '%s\n' --for --syncs --checkpoint) ;;
        name) _cq_offer "$word" < <(printf '%s\n' --at --to) ;;
        repair) _cq_offer "$word" <<<--dry-run ;;
        esac
    elif [ "$command ${COMP_WORDS[COMP_CWORD - 1]}" = "new --roll" ]; then
        _cq_offer "$word" < <(printf '%s\n' daily hourly minutely)
    else
        case $command:$COMP_CWORD in
        cycle:2 | init:3) _cq_offer "$word" < <(printf '%s\n' daily hourly minutely) ;;
        init:2 | new:2 | write:2 | log:2 | read:2 | take:2 | drop:2 | trim:2 | check:2 | stat:2 | dump:2 | salvage:2 | repair:2 | migrate:2 | name:2)
            compopt -o filenames
            mapfile -t COMPREPLY < <(compgen -d -- "$word")
            ;;
        cycle:4) _cq_offer "$word" < <(date +%s%3N) ;;
        write:3) _cq_offer "$word" < <(printf '%s\n' now "$(date +%s%3N)") ;;
        name:3) _cq_offer "$word" < <(printf '%s\n' list add remove move) ;;
        name:4)
            case ${COMP_WORDS[3]} in
            remove | move) _cq_offer "$word" < <(sed -n 's/^name \([A-Za-z0-9_.-]*\) [0-9]*$/\1/p' "$folder/queue.cqc" 2>/dev/null) ;;
            esac
            ;;
        take:3) _cq_offer "$word" < <(sed -n 's/^name \([A-Za-z0-9_.-]*\) [0-9]*$/\1/p' "$folder/queue.cqc" 2>/dev/null) ;;
        dump:3 | salvage:3 | repair:3) _cq_offer "$word" < <(cd "$folder" 2>/dev/null && printf '%s\n' *.cqi | grep -x '[0-9-]*\.cqi') ;;
        esac
    fi
}
complete -F _cq cq
