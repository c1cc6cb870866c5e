# What dash runs before the lines of `compare_with_dash`. Each utility becomes a function that runs
# it as the profile says: whole, on its whole input, with its diagnostics after its output.
#
# Statuses: dash has 2 after a failed redirection, where the profile has 1. So a utility's own
# status 2 becomes 3 here, and `compare_with_dash` reads 2 as 1 and 3 as 2.

# Reads what the stage before writes, so that this stage begins when that one has ended.
await() {
    if [ -p /dev/stdin ]; then command cat > /dev/null; fi
}

# The status of a utility, from its own status and the first line that it said.
status_of() {
    case $2 in
        *"invalid option"* | *"missing "*"operand"* | *"you must specify"* | [Uu]sage*) return 3 ;;
    esac
    case $1 in
        2) return 3 ;;
        *) return "$1" ;;
    esac
}

# Runs a utility that is a program.
external() {
    read -r process rest < /proc/self/stat
    kept=$ROOM/$process
    if [ -p /dev/stdin ]; then
        command cat > "$kept.in"
        command "$@" < "$kept.in" > "$kept.out" 2> "$kept.err"
    else
        command "$@" > "$kept.out" 2> "$kept.err"
    fi
    status=$?
    said=
    if [ -s "$kept.out" ]; then command cat "$kept.out"; fi
    if [ -s "$kept.err" ]; then
        read -r said < "$kept.err"
        command cat "$kept.err" >&2
    fi
    status_of "$status" "$said"
}

# Runs a utility that is a part of dash. A failed `cd` has status 2 in dash.
builtin() {
    await
    command "$@"
    status=$?
    case $1:$status in
        cd:2) return 1 ;;
        test:2) return 3 ;;
        *) return "$status" ;;
    esac
}

for name in cat cut grep tee mkdir rm cp mv id; do
    eval "$name() { external $name \"\$@\"; }"
done
for name in true false pwd cd test; do
    eval "$name() { builtin $name \"\$@\"; }"
done
unset name

# In dash's echo a backslash has a meaning, and in the profile's it has none.
echo() {
    await
    case $* in
        *\\*) ;;
        *) command echo "$@"; return ;;
    esac
    case $1 in
        -n) shift; printf %s "$*" ;;
        *) printf '%s\n' "$*" ;;
    esac
}

# Has the status $1.
result() {
    return "$1"
}

# Separates the outputs of lines, and keeps the status.
separate() {
    status=$?
    printf '\036'
    return "$status"
}

# Prints the status, the directory and the variables, with separators.
finish() {
    printf '%s\036%s' "$(($? == 2 ? 1 : $? == 3 ? 2 : $?))" "$PWD"
    for name in $NAMES; do
        eval "printf '\\036%s' \"\${$name+\$name=\$$name}\""
    done
}
