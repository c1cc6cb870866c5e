# shellcheck shell=bash disable=SC2154     # variables of recorder/sandbox.sh, to which this belongs
# The keeper writes what the session's shell is given.

# Writes what the inside reads at /.retro. It isn't watched, and the line can't change it.
write_shared() {
    local nonce line
    nonce=$(od -An -N16 -tx1 /dev/urandom | tr -d ' ')
    begin_mark="<retro-begin-$nonce>" end_mark="<retro-end-$nonce>"
    line=$(cat <&4) && printf %s "$line" > "$SHARED/line" &&
        cat <&5 > "$PRIVATE/variables" && cat <&6 > "$PRIVATE/shell" &&
        cat <&7 > "$PRIVATE/casebook" && cat <&8 > "$SHARED/hook.sh" &&
        chmod 755 "$PRIVATE/casebook" || return
    # The first is no variable, and bash gives the other one a value when it is declared.
    grep -av -e '^declare -- -$' -e '^declare -- COMP_WORDBREAKS$' "$PRIVATE/variables" \
        > "$SHARED/variables"
    write_state
    mkfifo -m 666 "$SHARED/in" "$SHARED/out" && mkfifo -m 600 "$SHARED/pause" || return
    cat > "$SHARED/send" << 'END'
#!/bin/sh
# Hands the record on standard input to the recorder, and ends with the status that it says.
cat > /.retro/in && read -r status < /.retro/out && exit "$status"
exit 1
END
    chmod 755 "$SHARED/send"
    write_start > "$SHARED/start"
}

# Splits the text of functions, aliases and options: the options are its last rows, and the aliases
# begin where what stands before them is a whole text of bash.
write_state() {
    local rows=() from to
    mapfile -t rows < "$PRIVATE/shell"
    to=${#rows[@]}
    while ((to > 0)) && [[ ${rows[to - 1]} =~ ^(set [-+]o|shopt -[su])\ [a-z0-9_-]+$ ]]; do
        ((to--))
    done
    printf '%s\n' "${rows[@]:to}" > "$SHARED/options"
    for ((from = 0; from < to; from++)); do
        [[ ${rows[from]} = 'alias '* ]] || continue
        ! printf '%s\n' "${rows[@]:0:from}" | bash -O extglob -n 2> /dev/null || break
    done
    printf '%s\n' "${rows[@]:0:from}" > "$SHARED/functions"
    printf '%s\n' "${rows[@]:from:to - from}" > "$SHARED/aliases"
}

# What the session's bash reads first. It gives it the session's state, in an order in which no part
# is in the way of the next one. If it is nevertheless, `has_state` finds that out.
write_start() {
    printf 'PS0=%q\nPROMPT_COMMAND[100]=%q\n' "$begin_mark" \
        "builtin printf %s '$end_mark' > /dev/tty"
    cat << 'END'
. /.retro/hook.sh
__retro_command=(/.retro/send) __retro_limit=20
\bind 'set enable-bracketed-paste off'
for __retro_name in emacs vi-insert vi-command; do
    \bind -m $__retro_name -x '"\C-_": IFS= read -r -d "" READLINE_LINE < /.retro/line || :'
done
\shopt -u expand_aliases
END
    [ -s "$PRIVATE/variables" ] && cat << 'END'
declare +x HISTFILE INPUTRC OLDPWD SHLVL
declare -A __retro_kept=()
while IFS= read -r __retro_name; do
    __retro_name=${__retro_name#declare -* }
    __retro_kept[${__retro_name%%=*}]=yes
done < /.retro/variables
__retro_kept[COMP_WORDBREAKS]=yes
for __retro_name in $(compgen -v); do
    case $__retro_name${__retro_left_out[$__retro_name]+/} in
        BASH* | __retro_* | */) continue ;;
    esac
    [ "${__retro_kept[$__retro_name]-}" ] || unset -v "$__retro_name"
done
unset -v __retro_name __retro_kept
. /.retro/variables
END
    if [ -s "$PRIVATE/shell" ]; then
        grep '^shopt' "$SHARED/options" |
            grep -v -e expand_aliases -e login_shell -e restricted_shell
        echo '. /.retro/functions'
        echo '. /.retro/aliases'
        grep -e '^set' -e expand_aliases "$SHARED/options" | sed 's/^/\\/'
    else
        echo '\shopt -s expand_aliases'
    fi
    echo "\\history -c"
}

# Says a command that leaves the statuses that the last one left, if the shell outlives it.
last_command() {
    local one text=''
    ! grep -qx 'set -o errexit' "$SHARED/options" || return 0
    for one in ${statuses:-$status}; do text+="${text:+ | }(exit $one)"; done
    (! grep -qx 'set -o pipefail' "$SHARED/options" || set -o pipefail; eval "$text")
    [ "$?" = "$status" ] || text="! $text"
    printf '; %s' "$text"
}
