# For tests in bash, by `source`: a folder `room` for their files, how many cases were tried and found wrong, and two ways to
# try a command.
# shellcheck shell=bash disable=SC2034

room=$(mktemp -d)
trap 'chmod -R u+w "$room" && rm -rf "$room"' EXIT
# another user comes here too
chmod 755 "$room"
tried=0 wrong=0

# Before a command: it is run as another user, where this one may write everywhere.
other_user=()
if [ "$(id -u)" = 0 ]; then other_user=(setpriv --reuid=65534 --regid=65534 --clear-groups); fi

# The files of this tree that a copy of it needs to build, without what rt made in the crates' folders.
copy_tree() { # FROM TO FILE..
    (cd "$1" && tar -cf - --exclude='crates/*/out' "${@:3}") | tar -xf - -C "$2"
}

there_is_another_user() {
    "${other_user[@]}" test -r "$room" && return
    echo "${0##*/}: there is no other user to be here, so a tree of somebody else's was not tried" >&2
    return 1
}

complain() { # WORDS
    echo "${0##*/}: $1" >&2
    wrong=$((wrong + 1))
}

# Sets `status`. Standard output and standard error are then in $room/said and $room/told.
run_command() { # COMMAND..
    tried=$((tried + 1))
    status=0
    "$@" >"$room/said" 2>"$room/told" || status=$?
}

# Standard output has to be this text and a line feed, standard error has to be empty, and the status this.
try_output() { # NAME STATUS TEXT COMMAND..
    run_command "${@:4}"
    printf '%s\n' "$3" >"$room/expected"
    if ! cmp -s "$room/said" "$room/expected"; then
        complain "$1: printed '$(head -c 300 "$room/said")', expected '$3'"
    elif [ -s "$room/told" ]; then
        complain "$1: told '$(head -c 300 "$room/told")'"
    elif [ "$status" -ne "$2" ]; then
        complain "$1: the status is $status"
    fi
}

# Nothing on standard output, a message with these words, and status 2.
try_refused() { # WORDS COMMAND..
    run_command "${@:2}" </dev/null
    if [ -s "$room/said" ]; then
        complain "${*:2}: printed '$(head -c 300 "$room/said")'"
    elif ! grep -qF -e "$1" "$room/told"; then
        complain "${*:2}: no message says '$1', but '$(head -c 300 "$room/told")'"
    elif [ "$status" -ne 2 ]; then
        complain "${*:2}: the status is $status"
    fi
}
