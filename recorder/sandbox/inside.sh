# shellcheck shell=bash
# shellcheck disable=SC2015,SC2034,SC2089,SC2090,SC2153,SC2154,SC2317
# The inside of a sandbox: what runs between the keeper and the session's shell. The variables are
# those of recorder/sandbox.sh, to which this belongs, and the functions are called by their texts.

refuse() {
    echo "sandbox: $*"
    exit 1
}

# What makes the sandbox's root folder the only one. With a command it also enters the users that
# are open as descriptor 16, in the same process: no program of that folder runs before.
# shellcheck disable=SC2016         # these are perl's
ENTER='my ($pivot_root, $umount, $setns, $root) = splice @ARGV, 0, 4;
    my ($new, $old) = (".", ".");
    chdir $root and syscall($pivot_root, $new, $old) == 0 and syscall($umount, $old, 2) == 0 and
        chdir "/" or die "sandbox: no root folder: $!\n";
    if (@ARGV) { syscall($setns, 16, 0x10000000) == 0 and exec @ARGV; exit 127 }
    $| = 1; print "ready\n"; sleep 1000'
case $(uname -m) in
    x86_64) ENTER_CALLS=(155 166 308) READ_CALL=0 ;;
    *) ENTER_CALLS=(41 39 268) READ_CALL=63 ;;
esac

# Makes sure that all that is in sight is read-only, but for what belongs to the sandbox.
check_mounts() {
    local into options rest kind
    while read -r _ _ _ _ into options rest; do
        kind=${rest##*- } kind=${kind% *}
        case $into:$kind in
            /:'tmpfs retro-sandbox' | /dev/pts:'devpts retro-pts') continue ;;
            *:'tmpfs retro-sandbox') is_in "$into" "${watched[@]}" || refuse "seen: $into" ;;
            *)
                is_in "$into" "${SYSTEM[@]}" /dev /proc /.retro || refuse "seen: $into"
                [[ ,$options, = *,ro,* ]] || refuse "can be changed: $into" ;;
        esac
    done < /proc/self/mountinfo
}

# Makes a namespace of users, in which each has the number that he has outside, and rights count for
# nothing outside. Nobody makes another one in it. Leaves it open as descriptor 16.
make_users() { # A /proc THAT CAN BE WRITTEN TO
    local holder
    unshare --user sleep 1000 &
    holder=$!
    while [ "$1/$holder/ns/user" -ef /proc/self/ns/user ]; do sleep 0.01; done
    echo '0 0 4294967295' > "$1/$holder/uid_map" &&
        echo '0 0 4294967295' > "$1/$holder/gid_map" && exec 16< "$1/$holder/ns/user" || return
    kill -9 "$holder"
    wait "$holder" 2> /dev/null
    # shellcheck disable=SC2016     # the other shell expands it
    nsenter --user=/proc/self/fd/16 sh -c 'echo 0 > "$0/sys/user/max_user_namespaces"' "$1"
}

# Limits what all processes have together. All but the first are numbers of namespaces.
set_limits() { # A /proc THAT CAN BE WRITTEN TO
    local release
    echo 1000 > "$1/self/oom_score_adj"         # if memory runs out, these end first
    echo 65536 > "$1/sys/kernel/shmall"
    echo 64 > "$1/sys/kernel/msgmni"
    # Before Linux 6.14 that is a number of the machine.
    release=$(uname -r)
    [[ $release =~ ^([0-9]+)\.([0-9]+) ]] || return
    ((BASH_REMATCH[1] * 1000 + BASH_REMATCH[2] < 6014)) ||
        echo $((300 + 2 * PROCESSES)) > "$1/sys/kernel/pid_max"
}

# The first process of the line's. It tells the keeper its number, and whether the shell left others
# when it ended. After its root folder is the sandbox's it runs no program.
inside() {
    local number
    exec 2>&1                       # of unshare nothing is shown
    read -r number _ < /proc/self/stat
    echo "first $number" >&11
    umount -l "$PRIVATE" && umount -l "$ROOT/proc" &&
        mount -t proc -o nosuid,nodev,noexec proc "$ROOT/proc" || refuse "no /proc"
    make_users "$ROOT/proc" || refuse "no users"
    set_limits "$ROOT/proc"
    mount -o remount,bind,ro,nosuid,nodev,noexec "$ROOT/proc" || refuse "no /proc"
    setsid --ctty perl -e "$ENTER" "${ENTER_CALLS[@]}" "$ROOT" bash -c "$BECOME" 11>&-
    exec 16<&-
    for _ in 1 2 3 4 5 6; do
        set -- /proc/[0-9]*
        [ "$#" -gt 1 ] || break
        read -r -t 0.05 <> /.retro/pause
    done
    if [ "$#" -gt 1 ]; then echo "left 0" >&11; else echo "gone 0" >&11; fi
    read -r -t 5 <> /.retro/pause               # the keeper ends it
}

# Becomes a command to which some calls of the system are denied: those of keyrings, which a user
# has in all namespaces together, and some that lines don't need and in which kernels had faults.
deny_calls() { # COMMAND..
    local calls
    case $(uname -m) in     # prctl, the kind of machine, and what is denied
        x86_64) calls=(157 0xC000003E 248 249 250 298 321 323 425) ;;
        aarch64) calls=(167 0xC00000B7 217 218 219 241 280 282 425) ;;
        riscv64) calls=(167 0xC00000F3 217 218 219 241 280 282 425) ;;
        *) refuse "calls of the system have other numbers here" ;;
    esac
    # shellcheck disable=SC2016     # these are perl's
    exec perl -e 'my ($prctl, $machine) = (shift, oct shift); my (@denied, @code);
        push @denied, shift while $ARGV[0] ne "--"; shift;
        my @no = (6, 0, 0, 0x50001);                # the error EPERM
        push @code, [0x20, 0, 0, 4], [0x15, 1, 0, $machine], [@no];
        push @code, [0x20, 0, 0, 0], [0x35, 0, 1, 0x40000000], [@no];
        push @code, [0x15, 0, 1, $_], [@no] for @denied;
        push @code, [6, 0, 0, 0x7fff0000];
        my $filter = join "", map { pack "SCCL", @$_ } @code;
        my $program = pack "Sx!8P", scalar @code, $filter;
        syscall($prctl, 22, 2, $program, 0, 0) == 0 and exec @ARGV; exit 127' \
        "${calls[@]}" -- "$@"
}

# Becomes the user, with the rights that root keeps if it is root.
become() {
    local group=${user#*:} person=${user%%:*} rights=-all words=()
    exec 16<&-
    case $user in
        *:*) words=(--clear-groups) ;;
        *) person=$(id -u -- "$user") && group=$(id -g -- "$user") ||
            { [[ $user != *[!0-9]* ]] && group=$user person=$user; } || refuse "no such user"
            words=(--init-groups)
            id -un -- "$user" > /dev/null 2>&1 || words=(--clear-groups) ;;
    esac
    [ "$person" != 0 ] || rights+=,$RIGHTS
    deny_calls setpriv --reuid "$person" --regid "$group" "${words[@]}" --bounding-set="$rights" \
        --inh-caps=-all --no-new-privs bash -c "$START"
}

# Makes sure that the user has no more rights than that, and becomes the session's shell.
start() {
    local name value bounds=0000000000000000 folder words=(--norc --noprofile -i)
    check_mounts
    [ ! -e /.retro/private/spool ] || refuse "the spool is seen"
    [ "$EUID" != 0 ] || bounds=00000000000000fb
    while read -r name value; do
        case $name in
            CapPrm: | CapEff: | CapBnd:)
                [ "$value" = "$bounds" ] || refuse "rights: $name $value" ;;
            CapInh: | CapAmb:) [ "$value" = 0000000000000000 ] || refuse "rights: $name $value" ;;
            NoNewPrivs:) [ "$value" = 1 ] || refuse "rights: $name $value" ;;
            Seccomp:) [ "$value" = 2 ] || refuse "rights: $name $value" ;;
        esac
    done < /proc/self/status
    for folder in /proc/self/fd/*; do
        [ "${folder##*/}" -le 2 ] || [ ! -e "$folder" ] || refuse "open: $(readlink "$folder")"
    done
    ! unshare --user true 2> /dev/null || refuse "a namespace of users can be made"
    ! unshare --mount true 2> /dev/null || refuse "a namespace of mounts can be made"
    for folder in "${SYSTEM[@]}" /proc /dev /.retro; do
        [ -L "$folder" ] || [ ! -w "$folder" ] || is_in "$folder" "${watched[@]}" ||
            refuse "can be changed: $folder"
    done
    [ ! -r /proc/1/root/. ] || refuse "the first process can be looked into"
    cd -- "$directory" || refuse "no such directory: $directory"
    umask "$mask"
    ulimit -c 0 -u "$PROCESSES" -v "$MEMORY" -f "$FILE_SIZE" || refuse "no limits"
    ! grep -qx 'shopt -s login_shell' /.retro/options || words+=(--login)
    exec env -i --default-signal PWD="$directory" HISTFILE=/dev/null INPUTRC=/dev/null \
        bash "${words[@]}"
}

# Sets the texts that the parts inside run, since they can't read this file.
write_parts() { # FOLDER..
    local watched=("$@") common
    common="set -u; $(declare -p DEVICES RIGHTS PROCESSES MEMORY FILE_SIZE SYSTEM ROOT PRIVATE \
        ENTER ENTER_CALLS watched)
        $(declare -f is_in refuse)"
    START="$common; $(declare -f start check_mounts); start"
    BECOME="$common; $(declare -f become deny_calls); become"
    INSIDE="$common; $(declare -f inside make_users set_limits); inside"
    export START BECOME INSIDE
}
