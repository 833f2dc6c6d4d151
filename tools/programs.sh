# For bash scripts, by `source`: has ready what rt builds of this tree, and says how to run a program.
# The script has `set -euo pipefail`, and sets `tree` to the tree's folder before it asks for something built.
# Messages go to standard error, under the script's name.
# shellcheck shell=bash disable=SC2154

tell() { # WORD..
    echo "${0##*/}: $*" >&2
}

# ---- building

# What is built of a crate: a program of one with a main.rt, else the archive for C.
is_program() { # CRATE
    [ -f "$tree/crates/$1/src/main.rt" ]
}

product() { # CRATE
    if is_program "$1"; then echo "$tree/target/bin/$1"; else echo "$tree/target/staticlib/lib$1.a"; fi
}

product_in_words() { # CRATE
    if is_program "$1"; then echo "the program $1"; else echo "the archive lib$1.a"; fi
}

# The rows of crates.txt for a crate and all crates of the tree that it rests on: NAME DEPENDENCY..
rows_of() { # CRATE
    awk -v wanted="$1" '
        function show(name,    i, count, below) {
            if (!(name in rests) || name in shown) return
            shown[name] = 1
            print name rests[name]
            count = split(rests[name], below, " ")
            for (i = 1; i <= count; i++) show(below[i])
        }
        { sub(/#.*/, "") }
        /:/ { name = $0; sub(/:.*/, "", name); sub(/^[ \t]+/, "", name); sub(/[ \t].*/, "", name); sub(/^[^:]*:/, ""); rests[name] = $0 }
        END { show(wanted) }' "$tree/crates.txt"
}

# The names of all files that rt reads for these rows, each ended by a zero byte.
files_of() { # ROWS
    local crate part parts=()
    while read -r crate _; do
        for part in src specs proofs stdin stdout args data; do
            if [ -e "$tree/crates/$crate/$part" ]; then parts+=("crates/$crate/$part"); fi
        done
    done <<<"$1"
    cd "$tree" && find "${parts[@]}" -type f -print0 | LC_ALL=C sort -z
}

# One number for all sources of a crate, names and contents.
sum_of_sources() { # CRATE
    local rows
    rows=$(rows_of "$1") || return
    (echo "$rows" && files_of "$rows" | (cd "$tree" && xargs -0 sha256sum --)) | sha256sum
}

# What is left in target/ beside a product: the numbers of the sources that it was built from and of the product itself. Where
# they are still the same, it is up to date, and rt need not be asked: it writes to the tree, and not every user may.
fingerprint_file() { # CRATE
    echo "$tree/target/fingerprint/$1"
}

fingerprint() { # CRATE SUM_OF_SOURCES
    echo "$2"
    sha256sum <"$(product "$1")"
}

is_up_to_date() { # CRATE
    local left
    left=$(fingerprint_file "$1")
    [ -r "$left" ] && [ -r "$(product "$1")" ] && [ "$(fingerprint "$1" "$(sum_of_sources "$1")")" = "$(cat "$left")" ]
}

# By rename, so that nobody reads half of it.
leave_fingerprint() { # CRATE SUM_OF_SOURCES
    local left
    left=$(fingerprint_file "$1")
    mkdir -p "${left%/*}" && fingerprint "$1" "$2" >"$left.$$" && mv -f "$left.$$" "$left"
}

target_can_be_written() {
    if [ -e "$tree/target" ]; then [ -w "$tree/target" ]; else [ -w "$tree" ]; fi
}

# Passes on what rt says, and tells of each crate as its proof begins. Of those that are unchanged there is nothing to tell.
tell_progress() {
    local line
    while IFS= read -r line; do
        echo "$line"
        case $line in "rt: chose --jobs "*" for "*) tell "proving ${line##* for }" ;; esac
    done
}

why_it_is_not_ready() { # CRATE
    local what
    what=$(product_in_words "$1")
    if [ ! -e "$(product "$1")" ]; then
        echo "$what is not built"
    elif [ ! -e "$(fingerprint_file "$1")" ]; then
        echo "nothing says from which sources $what was built"
    else
        echo "the sources have changed since $what was built"
    fi
}

tell_why_it_is_built() { # CRATE
    local what
    what=$(product_in_words "$1")
    if [ ! -e "$(product "$1")" ]; then
        tell "$what is proved and built first, which takes some minutes"
    elif [ -e "$(fingerprint_file "$1")" ]; then
        tell "the sources have changed: $what is proved and built again where need be, which can take some minutes"
    fi
}

# By rename, so that a program that is running stays whole.
keep_product() { # CRATE FILE
    local kept
    kept=$(product "$1")
    mkdir -p "${kept%/*}" && cp "$2" "$kept.$$" && mv -f "$kept.$$" "$kept"
}

# Of a program rt proves, builds and runs in one: it is then run on no input, and what it prints is passed on with the rest.
ask_rt() { # CRATE
    cd "$tree/crates/$1" || return
    if is_program "$1"; then
        rt run && keep_product "$1" "out/$1"
    else
        rt lib && keep_product "$1" "out/lib$1.a"
    fi </dev/null 2>&1
}

build_crate() { # CRATE
    local sum log=$tree/target/$1.log
    if ! command -v rt >/dev/null; then
        tell "$(why_it_is_not_ready "$1"), and the command rt of the Rattle kit is not on the path"
        return 1
    fi
    tell_why_it_is_built "$1"
    sum=$(sum_of_sources "$1") || return
    if ! ask_rt "$1" | tell_progress >"$log"; then
        cat "$log" >&2
        tell "$(product_in_words "$1") was not built"
        return 1
    fi
    leave_fingerprint "$1" "$sum"
}

# Two runs of rt in one tree wait for each other, and say nothing of it.
wait_for_turn() {
    command -v flock >/dev/null || return 0
    flock -n 9 || { tell "another run is building here; this one waits for it" && flock 9; }
}

# Has what is built of a crate ready and up to date. Where that cannot be, it says why, and fails.
have_built() { # CRATE
    if is_up_to_date "$1"; then return; fi
    if ! target_can_be_written; then
        tell "$(why_it_is_not_ready "$1"), and you cannot write to $tree/target: its owner has to run the same command once"
        return 1
    fi
    mkdir -p "$tree/target" || return
    (wait_for_turn && { is_up_to_date "$1" || build_crate "$1"; }) 9>"$tree/target/lock"
}

# ---- running

# The kit's folder with what runs programs on this machine. Fails where there is none.
kit_tools() {
    local kit=${RATTLE_HOME-} rt
    if [ -z "$kit" ]; then
        rt=$(command -v rt) || return
        kit=$(dirname "$(dirname "$(readlink -f "$rt")")")
    fi
    # a program may be run in another folder than this one
    case $kit in /*) ;; *) kit=$PWD/$kit ;; esac
    kit=$kit/toolchain
    [ -r "$kit/lib/ld-linux-x86-64.so.2" ] && echo "$kit"
}

# Sets `run`. Programs are for x86-64, and are run as rt runs them: with the kit's C library, and on Arm by the kit's emulator.
# Without the kit an x86-64 machine runs them with its own C library.
choose_runner() { # PROGRAM
    local tools
    if tools=$(kit_tools); then
        run=("$tools/lib/ld-linux-x86-64.so.2" --library-path "$tools/lib" "$1")
        if [ -x "$tools/bin/qemu-x86_64" ]; then run=("$tools/bin/qemu-x86_64" "${run[@]}"); fi
    elif [ "$(uname -m)" = x86_64 ]; then
        run=("$1")
    else
        tell "the programs are for x86-64: here the Rattle kit runs them, and neither rt on the path nor RATTLE_HOME leads to it"
        return 1
    fi
}
