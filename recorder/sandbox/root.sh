# shellcheck shell=bash disable=SC2154     # variables of recorder/sandbox.sh, to which this belongs
# The keeper makes the sandbox's root folder.

# Leaves the keeper the machine read-only, with a /proc and terminals of its own.
leave_machine() {
    local at
    mount -t proc -o nosuid,nodev,noexec proc /proc && make_users /proc && exec 13<&16- || return
    mount -t devpts -o newinstance,nosuid,noexec,mode=620,ptmxmode=600 retro-pts /dev/pts || return
    while read -r at; do
        printf -v at %b "$at"
        [ "$at" = /dev/pts ] || mount -o remount,bind,ro "$at" 2> /dev/null
    done < <(findmnt -rno TARGET)
}

# Whether a path is one of the folders that follow, or in one of them.
is_in() { # PATH FOLDER..
    local path=$1 folder
    shift
    for folder; do
        case $path/ in "$folder"/*) return 0 ;; esac
    done
    return 1
}

# Shows a system folder in the sandbox, read-only, with all that is mounted in it.
show_system() { # PATH
    local at
    if [ -L "$1" ]; then cp -P "$1" "$ROOT$1"; return; fi
    mkdir "$ROOT$1" && mount --rbind "$1" "$ROOT$1" || return
    while read -r at; do
        printf -v at %b "$at"
        mount -o remount,bind,ro,nosuid,nodev "$at" || return
    done < <(findmnt -rnRo TARGET "$ROOT$1")
}

# The devices are the machine's own, so their modes can't be changed, as on a read-only disk.
show_devices() {
    local name dev=$ROOT/dev
    mkdir "$dev" && mount -t tmpfs -o nosuid,size=64k,mode=755 retro-dev "$dev" || return
    for name in "${DEVICES[@]}"; do
        : > "$dev/$name" && mount --bind "/dev/$name" "$dev/$name" &&
            mount -o remount,bind,ro,nosuid,noexec "$dev/$name" || return
    done
    mkdir "$dev/pts" && mount --bind /dev/pts "$dev/pts" && ln -s pts/ptmx "$dev/ptmx" &&
        ln -s /proc/self/fd "$dev/fd" && ln -s fd/0 "$dev/stdin" && ln -s fd/1 "$dev/stdout" &&
        ln -s fd/2 "$dev/stderr" && mount -o remount,bind,ro,nosuid "$dev"
}

# Makes the sandbox's root folder. A watched folder in a system folder is a file system of its own.
make_root() { # FOLDER..
    local folder options=strictatime,nosuid,nodev,mode=755
    options+=,size=$FOLDER_SIZE,nr_inodes=$FOLDER_FILES
    mount -t tmpfs -o "$options" retro-sandbox "$ROOT" || return
    for folder in "${SYSTEM[@]}"; do
        [ -e "$folder" ] || continue
        is_in "$folder" "$@" || show_system "$folder" || return
    done
    for folder; do
        if is_in "$folder" "${SYSTEM[@]}" && ! [ -w "$ROOT$(dirname "$folder")" ]; then
            mount -t tmpfs -o "$options" retro-sandbox "$ROOT$folder" || return
        else
            mkdir -p "$ROOT$folder" || return
        fi
    done
    show_devices && mkdir -p "$ROOT"/{proc,run,var/tmp,tmp,.retro} || return
    is_in /tmp "$@" || chmod 1777 "$ROOT/tmp"
    is_in /var/tmp "$@" || chmod 1777 "$ROOT/var/tmp"
    mount -t proc -o nosuid,nodev,noexec proc "$ROOT/proc" &&
        mount -o remount,bind,ro,nosuid,nodev,noexec "$ROOT/proc"
}

# Fills the watched folders. No device can be made.
fill_folders() {
    chroot "$ROOT" setpriv --bounding-set="-all,$RIGHTS" --inh-caps=-all \
        tar -x -p --numeric-owner --same-owner -C / -f - <&3
}
