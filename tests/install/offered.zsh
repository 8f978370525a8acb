#!/usr/bin/env zsh
# Prints what zsh offers at the end of a command line, one word a line: `offered.zsh FUNCTIONS LINE`, where FUNCTIONS is the
# folder of _sdstore. It types the line and a tab into a zsh of its own, without the user's settings.
zmodload zsh/zpty || exit 1
settings=$(mktemp) || exit 1
trap 'rm -f $settings' EXIT
cat >$settings <<'END'
PROMPT=
setopt no_beep
autoload -Uz compinit
compinit -u -D
bindkey '^M' undefined
bindkey '^J' undefined
bindkey '^I' complete-word
zstyle ':completion:*' insert-tab false
# A line that ends in a zero byte is before and after what is offered.
mark_offer() { print -r -- $'\0' }
compprefuncs=(mark_offer)
comppostfuncs=(mark_offer exit)
compadd() {
    if [[ ${@[1,(i)(-|--)]} == *-(O|A|D)\ * ]]; then
        builtin compadd "$@"
        return
    fi
    local -a offered
    builtin compadd -A offered "$@"
    (($#offered)) && print -rl -- $offered
    builtin compadd "$@"
}
print ready
END
zpty z zsh -f -i
zpty -w z "fpath=(${(q)1} \$fpath); source $settings"
while zpty -r z line; do
    [[ $line == *ready* ]] && break
done
zpty -n -w z "$2"$'\t'
inside=
while zpty -r z line; do
    line=${line%$'\n'}
    line=${line%$'\r'}
    if [[ $line == *$'\0' ]]; then
        [[ -n $inside ]] && break
        inside=yes
    elif [[ -n $inside ]]; then
        print -r -- $line
    fi
done
