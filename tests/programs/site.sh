# What the tests of ./rewrite-cards and ./audit-cards share. Each sets `script`, the script's name, and sources this file after tests/common.sh.

fail() {
    echo "FAILED: $1"
    exit 1
}

# A root for the script in which every crate is proved at once, or none, by `proves`; the program is put there by the caller. And a folder for a site's cards.
# It is outside the repository, where rt ci takes no second crates.txt and no links, and goes with the run.
root=$(mktemp -d)
site=$root/site
trap '[ ! -d "$site" ] || chmod 755 "$site"; rm -rf "$root"' EXIT
fresh_root() { # PROGRAM
    rm -rf "$root"
    mkdir -p "$root"/{"crates/$1/out",tools,proves_all,proves_none} "$site"
    program=$root/crates/$1/out/$1
    cp "$script" "$root"
    cp tools/proved.sh "$root/tools"
    touch "$root/crates.txt"
    printf '#!/bin/sh\nexit 0\n' >"$root/proves_all/rt"
    printf '#!/bin/sh\necho refused\nexit 1\n' >"$root/proves_none/rt"
    chmod +x "$root"/proves_*/rt
}

# Begins a command that does only what permissions allow. Root's would do everything, unless these capabilities are taken from it, where that can be.
permitted=()
if [ "$(id -u)" -eq 0 ] && setpriv --bounding-set=-dac_override,-dac_read_search true 2>/dev/null; then
    permitted=(setpriv --bounding-set=-dac_override,-dac_read_search)
fi

# What the script has said on standard error.
says() { # TEXT
    grep -qF -- "$1" "$root/said" || { cat "$root/said"; fail "./$script doesn't say: $1"; }
}

says_nothing() {
    [ ! -s "$root/said" ] || { cat "$root/said"; fail "./$script says this"; }
}
