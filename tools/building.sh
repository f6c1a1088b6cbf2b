# What examples/build and the tests share; each sources it. It stands in the repository's root afterwards.
cd "$(dirname "${BASH_SOURCE[0]}")/.."
compiler=${CC:-cc}

if ! command -v "$compiler" >/dev/null; then
    echo "no C compiler: '$compiler' is not there (Debian has one in gcc and libc6-dev)" >&2
    exit 2
fi

library=target/staticlib/libburst.a

# Whether a file is not there, or something under crates/ has changed since it was built. What rt makes is in the crates' out/.
stale() {
    [ ! -f "$1" ] || [ crates.txt -nt "$1" ] || [ -n "$(find crates -mindepth 2 -name out -prune -o -newer "$1" -print -quit)" ]
}

# Proves and compiles a crate for C, where its archive is stale. Another rt may be at work: the second waits where both need a crate.
build_archive() { # ARCHIVE CRATE
    stale "$1" || return 0
    env -C "crates/$2" rt lib
    mkdir -p "${1%/*}"
    cp "crates/$2/out/lib$2.a" "$1.new"
    mv "$1.new" "$1"
}

build_library() {
    build_archive "$library" burst_c
}
