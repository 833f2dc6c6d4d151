# For bash scripts at the repository's root, by `source`.
# shellcheck shell=bash

words_of_sample() { # COMMAND..
    local status=0
    "$@" || status=$?
    echo "status $status"
}

# What a command says of each sample that is kept, and closing of those with a set, each time with its status. It has to be
# tests/c/warehouse.stdout.
words_of_samples() { # COMMAND..
    local sample
    for sample in samples/*.k; do
        if grep -qx "${sample##*/}" samples/.gitignore; then continue; fi
        words_of_sample "$@" "$sample"
    done
    for sample in samples/good.k samples/pieces_*.k samples/set_*.k; do
        words_of_sample "$@" --closing "$sample"
    done
}
