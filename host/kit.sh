# Sourced by bench/run, second/compare and ports/: the kit's folders, and C for x86-64 by its own clang and linker, run by its loader.
# host/machine.sh has C of the machine itself.
kit=$(dirname "$(rt doc)")
tools=$kit/toolchain
emulator=

# kit_compile SOURCE OBJECT [FLAGS]
kit_compile() {
    local source=$1 object=$2
    shift 2
    "$tools/bin/clang" --target=x86_64-unknown-linux-gnu -march=x86-64 -std=gnu11 -fPIE -Wall -Wextra -Werror "$@" -nostdlibinc \
        -isystem "$(cc -print-file-name=include)" -isystem /usr/include -isystem "/usr/include/$(cc -dumpmachine)" \
        -c "$source" -o "$object"
}

# kit_link PROGRAM OBJECT|ARCHIVE...: the linker's words are shown where it fails
kit_link() {
    local program=$1 words
    shift
    words=$("$kit/bin/rattle-link" --target x86_64-unknown-linux-gnu --toolchain "$tools" -o "$program" "$@" 2>&1) || {
        printf '%s\n' "$words" >&2
        return 1
    }
}

# kit_run PROGRAM WORDS: the emulator's own words stand in $emulator_words
kit_run() {
    $emulator ${emulator_words:-} "$tools/lib/ld-linux-x86-64.so.2" --library-path "$tools/lib" "$@"
}
