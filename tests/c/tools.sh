# For bash scripts at the repository's root, by `source`: a C compiler for x86-64, for which the archive is, and what
# runs its programs. After `have_tools` the arrays `compile` and `run` serve; `emulated` says whether programs are.

# How to compile for x86-64, how to run what comes out, and the Debian packages that bring both.
choose_tools() {
    if [ "$(uname -m)" = x86_64 ]; then
        compile=(cc)
        run=()
        packages=(gcc libc6-dev)
        emulated=no
    else
        # static, so that the emulator needs no C library of x86-64 at hand
        compile=(x86_64-linux-gnu-gcc -static)
        run=(qemu-x86_64)
        packages=(gcc-x86-64-linux-gnu libc6-dev-amd64-cross qemu-user)
        emulated=yes
    fi
}

# Whether a program can be compiled, linked and run.
tools_work() {
    mkdir -p target/c
    echo 'int main(void) { return 0; }' >target/c/nothing.c
    "${compile[@]}" -o target/c/nothing target/c/nothing.c 2>/dev/null && "${run[@]}" target/c/nothing 2>/dev/null
}

install_tools() {
    [ "$(id -u)" = 0 ] && command -v apt-get >/dev/null || return 1
    export DEBIAN_FRONTEND=noninteractive
    local patience=(-o Acquire::http::Timeout=30 -o Acquire::https::Timeout=30 -o Acquire::Retries=1)
    apt-get "${patience[@]}" -qq update </dev/null || true
    apt-get "${patience[@]}" -qq -y --no-install-recommends install "${packages[@]}" </dev/null >/dev/null
}

# Whether there are tools, if need be after installing them; where there are none it says which were wanted.
have_tools() {
    choose_tools
    tools_work && return
    install_tools >&2 || true
    tools_work && return
    echo "${compile[0]}${run[0]:+ and ${run[0]}} do not work here and could not be installed" \
        "(Debian: ${packages[*]})" >&2
    return 1
}
