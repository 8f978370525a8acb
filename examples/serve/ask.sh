# shellcheck shell=bash
# Asks `sdstore serve --ids` from Bash: source this, then `serve_with PROGRAM [OPTION ..]`, and `ask LINE` for each line
# of a script. `answer` is set to the answer, without an empty line after it. `ask` fails with status 2 if the line has
# no answer, and with 1 if the program has ended, or gave the answer to another line, which ends it. `end_serving` ends
# it.

# serve_with PROGRAM [OPTION ..]: starts it, with these options before `serve`.
serve_with() {
    serving_id=0
    coproc SERVING { exec "$@" serve --ids; }
}

# ask LINE: sets `answer` to the answer to the line.
ask() {
    local line
    answer=
    # One line alone is a question; a silent one has no answer to wait for.
    case $1 in
    '' | '#'* | *$'\n'* | *$'\r') return 2 ;;
    esac
    [[ -n $serving_id && -n ${SERVING[1]-} ]] || return 1
    serving_id=$((serving_id + 1))
    printf '%s\n' "$serving_id $1" >&"${SERVING[1]}" && next_line || return
    answer=$line
    case ${1%% *} in
    why | find | list | dump | who | review)
        while true; do
            next_line || return
            [[ -n $line ]] || break
            answer+=$'\n'$line
        done
        ;;
    esac
}

# next_line: sets `line` to the next line of the answer to the last question. If that isn't what comes, as where an
# interrupt cut an earlier answer short, the program is ended.
next_line() {
    if IFS= read -r line <&"${SERVING[0]}" && [[ $line == "$serving_id "* ]]; then
        line=${line#* }
    else
        serving_id=''
        answer=''
        kill "${SERVING_PID:-}" 2>/dev/null
        return 1
    fi
}

# end_serving: no more lines come. Returns the program's status.
end_serving() {
    local ending=$SERVING_PID
    exec {SERVING[1]}>&-
    wait "$ending"
}
