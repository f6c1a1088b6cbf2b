# What the commands of this folder share; each sources it. It stands in the repository's root afterwards.
source "$(dirname "${BASH_SOURCE[0]}")/../tools/building.sh"
built=target/tests
mkdir -p "$built"

# What all C here is compiled with; what uses the library's header has -Iinclude as well.
flags="-std=c11 -Wall -Wextra -Wpedantic -Itests"
reference=$(echo tests/reference/*.c)

# Where rt leaves a program that it has proved and built, be it by rt ci or by rt run.
program_of() { # NAME
    echo "crates/$1/out/$1"
}

# As build_library of tools/building.sh, for a program. rt runs what it has built: here on no input, and nobody reads what comes.
build_program() { # NAME
    stale "$(program_of "$1")" || return 0
    env -C "crates/$1" rt run </dev/null >/dev/null
}

# The same for the sessions that are measured beside the library.
sessions=target/staticlib/libsessions.a
build_sessions() {
    build_archive "$sessions" sessions_c
}

# Compiles the measuring program over the libraries that are named. Functions and loops are aligned, lest a time depend on where the linker puts
# them: it made as much as a third of the best C's.
speed_sources="$(echo tests/speed/{speed,readers,measure,goals,subjects,plain,plain_card,plain_specialised,plain_best}.c) tests/inputs/cards.c $reference"
build_speed() {
    $compiler $flags -O2 -falign-functions=64 -falign-loops=64 -Iinclude $speed_sources "$sessions" "$library" $(viterbi) -lm -o "$built/speed"
}

# Reads it as the compiler does, and links nothing.
read_speed() {
    $compiler $flags -Iinclude -fsyntax-only $speed_sources
}

# What the measuring program's Viterbi decoder is compiled with, if libfec is installed.
viterbi() {
    local probe
    probe=$(mktemp -d)
    printf '#include <fec.h>\nint main(void) { return create_viterbi27(8) == 0; }\n' >"$probe/probe.c"
    if $compiler "$probe/probe.c" -lfec -o "$probe/probe" 2>/dev/null && "$probe/probe" 2>/dev/null; then
        echo "-DWITH_LIBFEC tests/speed/viterbi.c -lfec"
    fi
    rm -rf "$probe"
}

compile_trace_driver() {
    local sources
    sources=$(echo tests/drivers/trace/{trace_driver,making,records,running,comparing,trace}.c)
    $compiler $flags -O2 -g $(sanitizers) $sources tests/inputs/cards.c $reference -lm -o "$built/trace_driver"
}

# The sanitizers' options, if the compiler has them and what it builds with them runs.
sanitizers() {
    local options="-fsanitize=address,undefined -fno-sanitize-recover=all" probe
    probe=$(mktemp -d)
    echo 'int main(void) { return 0; }' >"$probe/probe.c"
    if $compiler $options "$probe/probe.c" -o "$probe/probe" 2>/dev/null && "$probe/probe" 2>/dev/null; then
        echo "$options"
    fi
    rm -rf "$probe"
}
