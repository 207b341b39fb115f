# Sourced by host/run: C programs with the herd desk's archive, for this machine or, where MACHINE names another, by its cross compiler and emulator.
machine=${MACHINE:-$(uname -m)}
compiler=cc emulated=
if [ "$machine" != "$(uname -m)" ]; then
    compiler=$machine-linux-gnu-gcc
    emulated=$(command -v "qemu-$machine" || command -v "qemu-$machine-static") || emulated=
fi

# Whether programs of the machine can be made and run here.
machine_is_here() { command -v "$compiler" >/dev/null && { [ "$machine" = "$(uname -m)" ] || [ -n "$emulated" ]; }; }

# machine_compile SOURCE OBJECT [FLAGS]
machine_compile() {
    local source=$1 object=$2
    shift 2
    "$compiler" -std=gnu11 -Wall -Wextra -Werror "$@" -c "$source" -o "$object"
}

# machine_link PROGRAM OBJECT|ARCHIVE...
machine_link() {
    local program=$1
    shift
    "$compiler" -pthread "$@" -o "$program"
}

# machine_run PROGRAM WORDS: an emulator finds the machine's C library where the cross compiler has it.
machine_run() { ${emulated:+"$emulated" -L "/usr/$machine-linux-gnu"} "$@"; }
