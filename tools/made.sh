# shellcheck shell=bash
# For bash scripts, by `source`: parts of a document that a script makes. A part stands between the lines
# `<!-- made by tools/SCRIPT: NAME -->` and `<!-- end -->`; what is around it is written by hand.

# The document with each part of this script made anew, by the function part_NAME.
remade() { # SCRIPT DOCUMENT
    local line inside=
    while IFS= read -r line; do
        if [ -z "$inside" ]; then
            printf '%s\n' "$line"
            [[ $line =~ ^"<!-- made by tools/$1: "([a-z]+)" -->"$ ]] || continue
            inside=${BASH_REMATCH[1]}
            "part_$inside" || return 1
        elif [ "$line" = '<!-- end -->' ]; then
            printf '%s\n' "$line"
            inside=
        fi
    done <"$2"
    [ -z "$inside" ] || complain "$2: the part $inside has no end"
}

# A message; and the status of a refusal.
complain() { # MESSAGE
    echo "$1" >&2
    return 1
}

# Makes the parts of a document anew; with --check it only says whether they are as they would be made.
# Status 0: they are. 1: they are not, or cannot be made; the document is then as it was. 2: bad usage.
make_parts() { # SCRIPT DOCUMENT PARTS [WORD..]
    local script=$1 document=$2 part made
    for part in $3; do
        [ "$(grep -cx "<!-- made by tools/$script: $part -->" "$document")" = 1 ] ||
            complain "$document has to have the part $part of tools/$script once" || return 1
    done
    made=$(remade "$script" "$document") || return 1
    case "${*:4}" in
    '') printf '%s\n' "$made" >"$document" ;;
    --check) printf '%s\n' "$made" | diff "$document" - >&2 || complain "$document is not as tools/$script makes it" ;;
    *) complain "usage: tools/$script [--check]" || return 2 ;;
    esac
}
