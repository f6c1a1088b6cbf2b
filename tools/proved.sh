# What ./listing, ./rewrite-cards and ./audit-cards share. Each sets `script`, its name, and has a function `usage`; then it sources this file.
root=$(cd "$(dirname "${BASH_SOURCE[0]}")/.." && pwd)

# A file's name as it is shown: as it stands, or quoted as bash does it where it has a control character, so that a line stays a line.
shown() { # NAME
    case $1 in
    *[[:cntrl:]]*) printf '%q' "$1" ;;
    *) printf '%s' "$1" ;;
    esac
}

misused() {
    printf '%s: %s\n\n' "$script" "$1" >&2
    usage >&2
    exit 2
}

# Proves and builds a program where it is not built yet, as `program`; nothing is run that rt has not proved. Says nothing unless it fails:
# standard output is the script's alone, and standard input too.
build() { # NAME
    local said proved=
    program=$root/crates/$1/out/$1
    command -v rt >/dev/null || { echo "$script: there is no rt on the path: it is the toolchain that proves and builds the program" >&2; exit 1; }
    [ -x "$program" ] || echo "$script: proving and building the program; the first time this takes some minutes" >&2
    # rt also runs what it has built, here on no input. Its words go to a file, and its status is asked for itself: bash has 0 for a `$(..)` that it could
    # not run.
    if said=$(mktemp) && [ -f "$said" ]; then
        if env -C "$root/crates/$1" rt run </dev/null >/dev/null 2>"$said"; then
            proved=yes
        else
            cat "$said" >&2
        fi
        rm -f "$said"
    fi
    [ -z "$proved" ] || return 0
    echo "$script: rt has not proved the program, so it is not run" >&2
    exit 1
}
