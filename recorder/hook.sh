# shellcheck shell=bash
# shellcheck disable=SC2128,SC2178  # of __retro_number and __retro_begun the first element is meant
# Hands a record of each line that an interactive bash runs to a command, and waits for it.
# `docs/FORMATS.md` has the record. Source this file at the end of /etc/bash.bashrc, in bash 5.1 or
# later. Debian's /etc/profile reads that in login shells, too; elsewhere source this file also from
# /etc/profile.d. It is a witness of honest people and no guard: whoever wants to can leave it
# (`docs/UNTRUSTED.md`).
#
# How it works: bash expands PS0 after it has read a line and before it runs it, and runs
# PROMPT_COMMAND before the next prompt. PS0 is expanded in the shell itself, so `${name:=..}` and
# `$((name=..))` set variables there; `${__retro_none..}` hides what they expand to. Everything that
# takes time runs in command substitutions, which give their results on descriptor 3. Standard output
# and standard error go to /dev/null, so neither a trace (`set -x`) nor a user's trap is shown.
#
# For the user it empties HISTCONTROL and HISTIGNORE and switches cmdhist, lithist and promptvars
# on, since the text of a line is that of the history.

[ -n "${BASH_VERSION-}" ] || return 0
case $- in *i*) ;; *) return 0 ;; esac
((BASH_VERSINFO[0] * 100 + BASH_VERSINFO[1] >= 501)) || return 0
[ "${__retro_pid-}" != "$$" ] || return 0       # this shell has sourced it already
! shopt -q restricted_shell || return 0         # it can't redirect

# The settings. The file can set them again; the environment can't.
unset -v "${!__retro_@}"
# The command has to end by itself. `timeout` is run by root, since nobody else can end what sudo runs.
__retro_command=(/usr/bin/sudo -n /usr/bin/timeout -k 0.1 1.8
    /usr/bin/casebook observe /var/lib/retro/spool)
__retro_limit=2         # seconds that a prompt waits for it, should it hang nevertheless
# shellcheck source=/dev/null
[ ! -r /etc/retro/recorder.conf ] || . /etc/retro/recorder.conf

printf -v __retro_session '%(%Y%m%dT%H%M%S)T-%s-%d' -1 "${EPOCHREALTIME: -6}" "$$"
# Arrays, since no array is ever exported: with `set -a` an assignment exports.
__retro_number=(0) __retro_begun=(0) __retro_text=()
__retro_pid=$$ __retro_history='' __retro_none=''
__retro_last=(- -) __retro_exits=- __retro_mark=$'--retro--\n' __retro_resume=0 __retro_pause=1 __retro_said=''
# Before each line: its number; what __retro_begin says; PROMPT_COMMAND again, if it was replaced.
# shellcheck disable=SC2016     # bash expands these when it expands PS0, and not here
{
    __retro_ps0='${__retro_none:$((__retro_begun=1,__retro_number+=1)):0}'
    __retro_ps0+='${__retro_none/"${__retro_text[__retro_number]:=$({ __retro_begin; } 3>&1 >/dev/null 2>&1)}"}'
    __retro_ps0+='${__retro_none/"${PROMPT_COMMAND[99]:=$__retro_prompt}"}'
    __retro_prompt='{ __retro_end "${PIPESTATUS[@]}"; } 3>&2 >/dev/null 2>&1'
}
__retro_before='{ __retro_exit && :; } >/dev/null 2>&1; '     # `&& :` goes on with `set -e`

# Variables that are bash's own, or the hook's, and change by themselves. Those whose names begin
# with BASH or __retro_ are left out too.
declare -A __retro_left_out=()
for __retro_name in COLUMNS DIRSTACK EPOCHREALTIME EPOCHSECONDS EUID FUNCNAME GROUPS HISTCMD LINENO \
    LINES PIPESTATUS PPID PROMPT_COMMAND PS0 PWD RANDOM RETRO_SESSION SECONDS SHELLOPTS SRANDOM UID _; do
    __retro_left_out[$__retro_name]=yes
done

# Makes a subshell free of the user's options and traps, and deaf to the keyboard.
__retro_alone() {
    set +aefuvx +o posix
    trap - DEBUG ERR RETURN
    trap '' HUP INT QUIT TSTP
}

# Hands over a record. Says 0 if it was taken, 1 if the command failed, 2 if it wasn't done in time,
# 3 if that was so a moment ago, and it isn't tried. Runs in a subshell.
__retro_put() { # KIND FIELD..
    __retro_alone
    local __retro_now=${EPOCHREALTIME-} __retro_at=${PWD-} __retro_done=
    __retro_now=${__retro_now//[!0-9]/}     # the point is a comma in some locales
    [ -n "$__retro_now" ] || builtin printf -v __retro_now '%(%s)T000000' -1
    case $__retro_at in /*) ;; *) __retro_at=$(builtin pwd) ;; esac
    if ((__retro_now < __retro_resume)); then builtin printf 3 >&3; return; fi
    # If the command hangs nevertheless, `read` has a limit. What may hang gets no other descriptors:
    # the shell waits until nobody has the pipe in which results go, or a copy of it.
    IFS='' builtin read -r -t "$__retro_limit" __retro_done < <(
        for __retro_at_fd in /proc/self/fd/*; do
            case ${__retro_at_fd##*/} in [012] | *[!0-9]*) ;; *) eval "exec ${__retro_at_fd##*/}>&-" ;; esac
        done
        builtin printf '%s\0' "$1" "$__retro_session" "$__retro_now" "$EUID" "$__retro_at" "${@:2}" |
            "${__retro_command[@]}" >/dev/null 2>&1
        builtin printf '%s\n' "${PIPESTATUS[1]}"
    )
    case $__retro_done in 0) ;; '' | 124 | 137) __retro_done=2 ;; *) __retro_done=1 ;; esac
    builtin printf %s "$__retro_done" >&3
}

# Tells the user once, on descriptor 3, if a record wasn't taken. After each time in a row that the
# command wasn't done in time, nothing is handed over for twice as long, up to 64 seconds.
__retro_check() { # WHAT __retro_put SAID
    case $1 in
        0) __retro_pause=1; return ;;
        2) __retro_resume=$((${EPOCHSECONDS:-0} + __retro_pause + 1))000000
            [ "$__retro_pause" -ge 64 ] || __retro_pause=$((__retro_pause * 2)) ;;
    esac
    [ -n "$__retro_said" ] || builtin printf "retro: this session isn't recorded, or not all of it\n" >&3
    __retro_said=yes
}

# Hands over a `begin`. Says what __retro_put says, and the line, if the history has a new one.
__retro_begin() {
    __retro_alone
    local __retro_line=
    [ "${HISTCMD:-none}" = "$__retro_history" ] || __retro_line=$(builtin fc -ln -0 -0)
    __retro_line=${__retro_line:2}      # after a tab and a blank
    set -- hidden
    [ -z "$__retro_line" ] || set -- shown
    __retro_put begin "$__retro_number" "$1" "$__retro_line"
    builtin printf %s "$__retro_line" >&3
}

# Says the trap of EXIT, variables, and functions, aliases and options, with $__retro_mark between.
__retro_state() { # THE USER'S $-
    builtin trap -p EXIT >&3
    builtin printf %s "$__retro_mark" >&3
    set -- "$__retro_mark" "${1//[!aefuvxET]/}"
    unset -v "${!__retro_@}"
    builtin declare -p >&3
    builtin printf %s "$1" >&3
    unset -f __retro_{alone,put,check,begin,state,send,start,end,install,trap,exit}
    builtin declare -f >&3
    builtin alias -p >&3
    builtin shopt -p >&3
    set +f "-$2"        # as they were before __retro_end
    set +o >&3
}

# Each command here and in __retro_send has one substitution at most: in between bash runs the user's
# trap of SIGCHLD, and if it does so in the middle of a command, bash 5.2 loses what follows.
__retro_end() { # STATUS OF EACH COMMAND OF THE LAST PIPE..
    local __retro_status=$? __retro_options=$- -
    set +aeuvxET -f
    if [ "$__retro_begun" != 0 ]; then
        local __retro_statuses __retro_shown=hidden __retro_line=${__retro_text[__retro_number]-}
        __retro_check "${__retro_line:0:1}"
        __retro_line=${__retro_line:1}
        # If ~/.bashrc replaced PROMPT_COMMAND, the state at the first prompt isn't known.
        [ -n "$__retro_history" ] || __retro_check "$({ __retro_start same '' same ''; } 3>&1 >/dev/null)"
        [ -z "$__retro_line" ] || __retro_shown=shown
        [ "$#" -gt 1 ] || set -- "$__retro_status"      # of `! true` PIPESTATUS is 0, and $? is 1
        builtin printf -v __retro_statuses '%s ' "$@"
        __retro_send __retro_put end "$__retro_number" "$__retro_status" "${__retro_statuses% }" \
            "$__retro_shown" "$__retro_line"
        __retro_begun=0 __retro_text=()
    elif [ -z "$__retro_history" ]; then            # the first prompt, after ~/.bashrc
        __retro_send __retro_start
    fi
    __retro_history=${HISTCMD:-none}
}

# Hands over a record whose last fields say the state, or that it is what they said last.
__retro_send() { # WHAT HANDS IT OVER, WITH ITS OTHER FIELDS..
    local __retro_rows __retro_row __retro_name __retro_variables='' __retro_shell
    local __retro_state=(same '' same '')
    __retro_install
    __retro_shell=$({ __retro_state "$__retro_options"; } 3>&1 >/dev/null)
    __retro_rows=${__retro_shell%%"$__retro_mark"*}
    __retro_shell=${__retro_shell:${#__retro_rows} + ${#__retro_mark}}
    __retro_trap "${__retro_rows%?}"
    __retro_rows=${__retro_shell%%"$__retro_mark"*}
    __retro_shell=${__retro_shell:${#__retro_rows} + ${#__retro_mark}}
    local IFS=$'\n'
    for __retro_row in $__retro_rows; do        # `declare` writes a newline in a value as \n
        __retro_name=${__retro_row#declare -* } __retro_name=${__retro_name%%=*}
        [ "${__retro_name:0:4}" = BASH ] || [ "${__retro_name:0:8}" = __retro_ ] ||
            [ "${__retro_left_out[$__retro_name]-}" ] || __retro_variables+=$__retro_row$IFS
    done
    [ "$__retro_variables" = "${__retro_last[0]}" ] || __retro_state[0]=new __retro_state[1]=$__retro_variables
    [ "$__retro_shell" = "${__retro_last[1]}" ] || __retro_state[2]=new __retro_state[3]=$__retro_shell
    set -- "$({ "$@" "${__retro_state[@]}"; } 3>&1 >/dev/null)"
    __retro_last=(- -)                  # if it isn't known whether it was taken
    [ "$1" != 0 ] || __retro_last=("$__retro_variables" "$__retro_shell")
    __retro_check "$1"
}

# Hands over a `start`. Says what __retro_put says. Runs in a subshell.
__retro_start() { # THE FIELDS OF THE STATE..
    local __retro_terminal
    __retro_alone
    __retro_terminal=$(/usr/bin/tty) || __retro_terminal=
    __retro_put start "$__retro_parent" "$__retro_terminal" "$(builtin umask)" \
        "${SUDO_USER:-$(/usr/bin/logname || /usr/bin/id -un)}" "${SSH_CONNECTION-}" "$@"
}

# Puts the hook in place, also where the user has set something else since the last prompt.
__retro_install() {
    builtin declare -g "PROMPT_COMMAND[99]=$__retro_prompt" || return
    [[ ${PS0-} = *"$__retro_ps0"* ]] || builtin declare -g "PS0=$__retro_ps0${PS0-}"
    [ -z "${HISTCONTROL-}${HISTIGNORE-}" ] || builtin declare -g HISTCONTROL='' HISTIGNORE=''
    builtin shopt -s cmdhist lithist promptvars
}

# Puts the hook before the user's trap of EXIT.
__retro_trap() { # WHAT `trap -p EXIT` SAYS
    [ "$1" != "$__retro_exits" ] || return 0
    eval "set -- ${1#trap}"             # -- TEXT EXIT, or nothing
    set -- "${2-}"
    trap -- "$__retro_before${1#"$__retro_before"}" EXIT
    __retro_exits=$(builtin trap -p EXIT)
}

__retro_exit() {
    local __retro_status=$?
    [ "${BASHPID-$$}" != "$$" ] || : "$({ __retro_put exit "$__retro_number" "$__retro_status"; } 3>&1)"
    return "$__retro_status"
}

# What is done at once. The `start` is handed over at the first prompt, after the rest of ~/.bashrc.
__retro_source() {
    local -
    set +aefuvxET
    __retro_install || { __retro_check 1; return; }
    __retro_trap "$(builtin trap -p EXIT)"
    __retro_parent=${RETRO_SESSION-}
    case $__retro_parent in *[!A-Za-z0-9-]*) __retro_parent='' ;; esac
    [ "${#__retro_parent}" -le 64 ] || __retro_parent=''
    export RETRO_SESSION=$__retro_session
}
{ __retro_source; } 3>&2 >/dev/null 2>&1
unset -f __retro_source
