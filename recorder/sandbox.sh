#!/usr/bin/env bash
# Runs one line in real bash, in a sandbox, and records what it does there.
#
#     recorder/sandbox.sh --folder FOLDER.. --tar FILE --user USER --directory DIRECTORY \
#         --line FILE --spool NEW [OPTION..]                                   as root
#
#     --folder FOLDER     a watched folder, as a path from the root; may be given again
#     --tar FILE          what the watched folders hold, as a stream of tar: srv/prices
#     --user USER         whose line it is: a name, or a number with a group, as 1001:1001
#     --directory DIR     where the line is typed
#     --line FILE         the line, of one row or several
#     --spool NEW         the spool of the line, a new directory
#     --variables FILE    the session's variables, as a record has them (`docs/FORMATS.md`)
#     --shell FILE        its functions, aliases and options, as a record has them
#     --status N          what $? is before the line; 0 if not given
#     --statuses 'N N..'  what PIPESTATUS is then; N alone if not given
#     --umask MASK        0022 if not given
#     --seconds N         how long the line may take; 10 if not given
#     --output FILE       gets what the line shows on its terminal
#     --casebook FILE     the program; /usr/bin/casebook if not given
#
# The exit status says how the line ended. Its own status is in the spool.
#
#     0   it ended, or ended its shell, and the spool has it
#     1   nothing was recorded: standard error says why
#     4   it took too long          5   it waited for the terminal
#     6   it ended and left processes behind: the spool has what it did until its end
#     7   a record wasn't taken, or the hook takes the line for several ones, as an alias of two rows
#     8   it started too many processes, or showed too much
#     130, 143                      the sandbox was interrupted
#
# There is a spool under 0 and 6 alone. Whatever the status, no process and no mount stays.
#
# How it works. Three parts, each started by the one before it:
#
#     outside   opens the files, and waits.
#     keeper    root, with mounts and processes of its own. It sees the machine, read-only, and
#               makes the sandbox's root folder below. It has the terminal, types, has `casebook
#               observe` take the records, and stops what takes too long.
#     inside    with mounts and processes of its own again: it doesn't see the keeper, the spool or
#               the terminal's other end. It leaves the machine for the sandbox's root folder and a
#               namespace of users, gives up its rights, makes sure of all that, and becomes the
#               session's bash with hook.sh.
#
# What is in the sandbox's root folder may be an intruder's, programs and /etc/ld.so.preload too. So
# nobody runs a program from there who has rights outside of it.
#
# `docs/UNTRUSTED.md` says what a line can do here, and what it can't.
#
# shellcheck disable=SC2015,SC2090,SC2317  # what stands after || ends it; traps call functions
set -u
export PATH=/usr/sbin:/usr/bin:/sbin:/bin LC_ALL=C
umask 022

FOLDER_SIZE=512m FOLDER_FILES=200000    # of a watched folder, and of all others together
PROCESSES=200                           # of the line's user
MEMORY=4194304 FILE_SIZE=524288         # of a process, and of a file, in KiB
OUTPUT_SIZE=8388608                     # bytes that the terminal may show
RECORD_SIZE=16777217                    # one byte more than casebook takes
SYSTEM=(/usr /etc /opt /bin /sbin /lib /lib32 /lib64 /libx32)
DEVICES=(null zero full random urandom tty)
# What root may still do, with files and processes of the sandbox alone.
RIGHTS=+chown,+dac_override,+fowner,+fsetid,+kill,+setgid,+setuid

PROGRAMS=(unshare nsenter setpriv setsid script findmnt chroot tar perl timeout)
ROOT=/tmp SHARED=/tmp/.retro PRIVATE=/tmp/.retro/private    # the sandbox's, as the keeper sees them
OWN_PRIVATE=/.retro/private                                 # and as `casebook observe` does

top=$(dirname "$(readlink -f "$0")")
# shellcheck source=recorder/sandbox/root.sh
. "$top/sandbox/root.sh"
# shellcheck source=recorder/sandbox/session.sh
. "$top/sandbox/session.sh"
# shellcheck source=recorder/sandbox/inside.sh
. "$top/sandbox/inside.sh"

fail() {
    echo "sandbox: $*" >&2
    exit 1
}

# ---- outside

# Closes what else is open: a folder that is open would lead outside.
close_others() {
    local at
    for at in /proc/self/fd/*; do
        case ${at##*/} in [012] | 255) ;; *) eval "exec ${at##*/}>&-" ;; esac
    done
}

# Reads the options. Files are opened here, since nobody else sees them: 3 tar, 4 line, 5 variables,
# 6 shell, 7 casebook, 8 hook.
read_options() {
    local tar='' line='' variables=/dev/null shell=/dev/null casebook=/usr/bin/casebook
    user='' directory='' spool='' output=/dev/null folders=()
    status=0 statuses='' mask=0022 seconds=10
    while [ "$#" -gt 0 ]; do
        [ "$#" -ge 2 ] || fail "$1 wants a value, or isn't an option"
        case $1 in
            --folder) folders+=("$2") ;;
            --tar) tar=$2 ;;
            --line) line=$2 ;;
            --variables) variables=$2 ;;
            --shell) shell=$2 ;;
            --casebook) casebook=$2 ;;
            --user) user=$2 ;;
            --directory) directory=$2 ;;
            --spool) spool=$2 ;;
            --output) output=$2 ;;
            --status) status=$2 ;;
            --statuses) statuses=$2 ;;
            --umask) mask=$2 ;;
            --seconds) seconds=$2 ;;
            *) fail "no such option: $1" ;;
        esac
        shift 2
    done
    check_options
    exec 3< "$tar" 4< "$line" 5< "$variables" 6< "$shell" 7< "$casebook" \
        8< "$top/hook.sh" || exit 1
}

check_options() {
    local folder
    [ -n "$user" ] && [ -n "$spool" ] && [ "${#folders[@]}" -gt 0 ] ||
        fail "--user, --spool, --folder, --tar, --directory and --line are needed"
    case $user in -* | *[!A-Za-z0-9_.:-]*) fail "no user: $user" ;; esac
    case $seconds$status${statuses// /}$mask in
        *[!0-9]*) fail "not a number: $seconds, $status, $statuses or $mask" ;;
    esac
    case $directory in /*) ;; *) fail "--directory wants a path from the root" ;; esac
    for folder in "${folders[@]}"; do
        case $folder/ in
            *//* | */./* | */../* | /proc/* | /dev/* | /sys/* | /.retro/*) ;;
            /*) continue ;;
        esac
        fail "can't be watched: $folder"
    done
}

outside() {
    local keeper='' unpacks='' result
    [ "$(id -u)" = 0 ] || fail "only root can make a sandbox"
    command -v "${PROGRAMS[@]}" > /dev/null || fail "needs all of ${PROGRAMS[*]}"
    close_others
    read_options "$@"
    export user directory status statuses mask seconds
    exec 10> "$output" || exit 1
    mkdir -m 700 -- "$spool" || exit 1
    exec 9> >(exec tar -x --no-same-owner --no-same-permissions -C "$spool" 2> /dev/null \
        3<&- 4<&- 5<&- 6<&- 7<&- 8<&- 10<&-)
    unpacks=$!
    trap 'interrupted 130' INT HUP
    trap 'interrupted 143' TERM
    # If this shell is killed, so is unshare, then the keeper, and then all that it started.
    setpriv --pdeathsig KILL unshare --mount --pid --fork --kill-child --net --ipc --uts --cgroup \
        bash "$0" --keeper "${folders[@]}" < /dev/null &
    keeper=$!
    exec 9>&- 10>&-
    wait "$keeper"
    result=$?
    wait "$unpacks" || [ "$result" -ne 0 ] || fail "the spool can't be written"
    case $result in
        4) echo "sandbox: the line took over $seconds seconds" >&2 ;;
        5) echo "sandbox: the line waits for the terminal" >&2 ;;
        6) echo "sandbox: the line left processes behind, which were stopped" >&2 ;;
        7) echo "sandbox: the line isn't recorded, or not all of it" >&2 ;;
        8) echo "sandbox: the line started too many processes, or showed too much" >&2 ;;
    esac
    case $result in 0 | 6) ;; *) rm -rf -- "$spool" ;; esac
    exit "$result"
}

interrupted() { # STATUS
    trap '' INT HUP TERM
    kill -9 "$keeper" 2> /dev/null
    wait "$keeper" "$unpacks" 2> /dev/null
    rm -rf -- "$spool"
    exit "$1"
}

# ---- the keeper: records

# Takes a record after the other: a `start`, a `begin`, and an `end` or an `exit`. Says of each its
# kind, and the status of `casebook observe`, on descriptor 11.
take_records() {
    local kind result before=''
    while head -c "$RECORD_SIZE" < "$SHARED/in" > "$PRIVATE/record"; do
        kind='' result=1
        IFS='' read -r -d '' kind < "$PRIVATE/record"
        case $before/$kind in
            /start | start/begin | begin/end | begin/exit)
                take_record < "$PRIVATE/record"
                result=$?
                before=$kind
                cp "$PRIVATE/record" "$PRIVATE/$kind"
                ;;
            *) kind=other ;;
        esac
        echo "$kind $result" >&11
        echo "$result" > "$SHARED/out"
    done
}

take_record() {
    SUDO_UID=$user_number watch 15 "$OWN_PRIVATE/spool"
}

# Runs `casebook observe` in the sandbox's root folder, without rights but that of reading there. It
# goes before others, since it gives up if a look takes long.
watch() { # SECONDS WORDS..
    nice -n -20 timeout -k 0.1 "$1" nsenter --user=/proc/self/fd/13 --mount=/proc/self/fd/14 -- \
        setpriv --bounding-set=-all,+dac_read_search --inh-caps=-all --no-new-privs \
        "$OWN_PRIVATE/casebook" observe "${@:2}"
}

# Whether the session's shell has the state that it was given.
has_state() {
    local fields=() at=11 name wanted
    mapfile -d '' fields < "$PRIVATE/start"
    for name in variables shell; do
        wanted=$(< "$PRIVATE/$name")
        if [ "$wanted" ] && [ "$wanted" != "${fields[at]%$'\n'}" ]; then
            echo "sandbox: the shell can't be given these $name:" >&2
            diff <(echo "$wanted") <(echo "${fields[at]%$'\n'}") | grep -a '^[<>]' | head -n 10 >&2
            return 1
        fi
        at=13
    done
}

# A shell that is gone without an `exit` has sent nothing of what its line did.
note_exit() {
    local fields=()
    [ -e "$PRIVATE/begin" ] || return 1
    [ ! -e "$PRIVATE/exit" ] && [ ! -e "$PRIVATE/end" ] || return 0
    mapfile -d '' fields < "$PRIVATE/begin"
    printf '%s\0' exit "${fields[@]:1:1}" "${EPOCHREALTIME/./}" "${fields[@]:3:2}" 1 0 |
        take_record || return 7
}

# ---- the keeper: what the line does

# The processes of the line: all that have its namespace of processes, but its first one.
line_processes() {
    local at
    processes=()
    for at in /proc/[0-9]*; do
        [ "$at" = "/proc/$first" ] || [ ! "$at/ns/pid" -ef "/proc/$first/ns/pid" ] ||
            processes+=("$at")
    done
}

# Whether one of them reads the terminal. A shell at its prompt isn't asked.
reads_terminal() {
    local at call file
    for at in "${processes[@]}"; do
        call='' file=''
        { read -r call file _ < "$at/syscall"; } 2> /dev/null
        [ "$call" = "$READ_CALL" ] || continue
        file=$at/fd/$((file))
        if [ "$file" -ef /dev/pts/0 ] || [ "$file" -ef /dev/tty ]; then return 0; fi
    done
    return 1
}

# Whether more than the shell is left after some time in which the hook's own processes end.
leaves_processes() {
    for _ in 1 2 3 4 5 6; do
        line_processes
        ((${#processes[@]} > 1)) || return 1
        sleep 0.05
    done
}

# Follows the line by the records that come, and returns how it ended, as the head of this file
# says.
follow() {
    local kind result waits=0 running='' until
    until=$((${EPOCHREALTIME/./} + 40000000))
    while :; do
        if read -r -t 0 -u 11; then         # with a limit of time, a part of a row may get lost
            read -r -u 11 kind result
            [ "$kind" != begin ] || running=yes until=$((${EPOCHREALTIME/./} + seconds * 1000000))
            [ "$kind" != first ] || first=$result result=0
            if [ "$result" != 0 ]; then
                [ -z "$running" ] || return 7
                echo "sandbox: the session's start wasn't recorded" >&2
                return 1
            fi
            case $kind in
                start)
                    has_state || return 1
                    until=$((${EPOCHREALTIME/./} + 20000000))
                    printf '\037\r' >&12
                    ;;
                end) ! leaves_processes || return 6; return 0 ;;
                gone | left) note_exit || return; [ "$kind" = gone ] || return 6; return 0 ;;
            esac
        elif ! kill -0 "$terminal" 2> /dev/null; then
            if [ "$running" ]; then return 8; fi    # it showed too much
            return 1
        elif [ "$running" ]; then
            line_processes
            ((${#processes[@]} <= 2 * PROCESSES)) || return 8
            if reads_terminal; then ((++waits < 3)) || return 5; else waits=0; fi
            sleep 0.1
        else
            sleep 0.05
        fi
        if ((${EPOCHREALTIME/./} >= until)); then
            [ -z "$running" ] || return 4
            echo "sandbox: the shell begins no line" >&2
            return 1
        fi
    done
}

# Writes what the terminal showed between the marks. The terminal writes newlines with a return.
write_output() {
    # shellcheck disable=SC2016     # these are perl's
    perl -0777 -e 'my ($begin, $end, $at) = @ARGV; open(my $file, "<:raw", $at) or exit;
        $_ = <$file>; exit unless s/\A.*?\Q$begin\E//s;
        s/\Q$end\E.*//s or s/\nScript done on [^\n]*\n\z//; s/\r\n/\n/g; print' \
        -- "$begin_mark" "$end_mark" "$PRIVATE/typescript" >&10
}

# Makes the two folders that aren't watched: the line sees /.retro, and never the one in it.
make_private() {
    mount -t tmpfs -o nosuid,nodev,size=64m,mode=755 retro-shared "$SHARED" && mkdir "$PRIVATE" &&
        mount -t tmpfs -o "nosuid,nodev,size=$FOLDER_SIZE,mode=700" retro-private "$PRIVATE" &&
        write_shared && mount -o remount,bind,ro,nosuid,nodev "$SHARED" &&
        mkfifo "$PRIVATE/events" "$PRIVATE/keys" &&
        exec 11<> "$PRIVATE/events" 12<> "$PRIVATE/keys" 3<&- 4<&- 5<&- 6<&- 7<&- 8<&-
}

# Leaves the mounts open as descriptor 14 in which `casebook observe` runs: the sandbox's alone.
make_watcher() {
    local holder
    exec 15< <(exec unshare --mount perl -e "$ENTER" "${ENTER_CALLS[@]}" "$ROOT" \
        9<&- 10<&- 11<&- 12<&- 13<&-)
    holder=$!
    read -r -u 15 && exec 14< "/proc/$holder/ns/mnt" && exec 15<&- && kill -9 "$holder"
}

# Starts the inside on a terminal of its own.
start_terminal() {
    # shellcheck disable=SC2016     # the shell that `script` starts expands it
    SHELL=/bin/bash script -q -f -o "$OUTPUT_SIZE" -c 'exec unshare --mount --pid --fork \
        --kill-child --ipc bash -c "$INSIDE" 12<&- 2> /dev/null' "$PRIVATE/typescript" \
        <&12 > /dev/null 2>&1 9<&- 10<&- 13<&- 14<&- &
    terminal=$!
    printf ' . /.retro/start%s\n' "$(last_command)" >&12
}

# Says the number of the line's user, by the sandbox's own list of users.
number_of_user() {
    local name number rest
    case $user in [0-9]*) echo "${user%%:*}"; return ;; esac
    while IFS=: read -r name _ number rest; do
        [ "$name" != "$user" ] || { echo "$number"; return; }
    done < "$ROOT/etc/passwd"
    return 1
}

stop_inside() {
    [ "$first" ] || return 0
    kill -9 "$first" 2> /dev/null
    while [ -e "/proc/$first" ]; do sleep 0.02; done
}

keeper() { # FOLDER..
    local result terminal first='' user_number processes=() begin_mark end_mark
    leave_machine && make_root "$@" && fill_folders && make_private && make_watcher ||
        fail "the sandbox can't be made"
    user_number=$(number_of_user) || fail "no such user: $user"
    watch 60 --start "$OWN_PRIVATE/spool" "$@" || fail "the folders can't be watched"
    write_parts "$@"
    take_records 9<&- 10<&- 12<&- &
    start_terminal
    follow
    result=$?
    stop_inside
    case $result in
        1) tail -n +2 "$PRIVATE/typescript" | tail -c 1000 | cat -v >&2 ;;
        *) write_output ;;
    esac
    case $result in 0 | 6) tar -c -C "$PRIVATE/spool" . >&9 || result=1 ;; esac
    exit "$result"
}

# ---- all

case ${1-} in
    --keeper) shift; keeper "$@" ;;
    *) outside "$@" ;;
esac
