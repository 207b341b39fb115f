#!/bin/sh
# bin/prove.sh PROGRAM: proves the crates that a program needs, each after those that it needs, then the program, and links it as
# target/bin/PROGRAM. Prints a line for each crate that it proves. In one checkout one rt works at a time. What the gate has linked from the same
# sources is taken as it is.
set -eu
root=$(dirname "$(dirname "$(readlink -f "$0")")")
program=$1
cd "$root"
made=crates/$program/out/$program

# The crates of this repository that the program needs, itself the last, each after those that it needs: a crate's line of crates.txt names these.
crates=$(awk -v program="$program" '
    function reach(crate,    list, n, i) {
        if (crate in reached || !(crate in needs)) return # the kit has the others
        reached[crate] = 1
        n = split(needs[crate], list, " ")
        for (i = 1; i <= n; i++) reach(list[i])
        print crate
    }
    { sub(/#.*/, ""); if (split($0, part, ":") == 2) needs[part[1]] = part[2] }
    END { reach(program) }' crates.txt)

# What of code, proof and crates.txt is later than the program; a folder is where a file of it was added or removed.
later() {
    find crates.txt -newer "$made"
    for crate in $crates; do
        for part in src specs proofs; do [ ! -d "crates/$crate/$part" ] || find "crates/$crate/$part" -newer "$made"; done
    done
}

# Whether the program is linked, and later than all these.
fresh() { [ -f "$made" ] && [ -z "$(later)" ]; }

# step CRATE WORDS...: an rt in the crate's folder; where it fails all that it said is shown
step() {
    crate=$1
    shift
    (cd "crates/$crate" && rt "$@") >"target/log/$crate.out" 2>&1 </dev/null && return
    [ "$1" = run ] && [ -f "$made" ] && return # the program's own status
    cat "target/log/$crate.out"
    echo "prove: $crate NOT PROVED"
    return 1
}

mkdir -p target/log target/bin
if ! fresh; then
    rm -f "$made"
    touch "target/log/$program.began"
    for each in $crates; do
        began=$(date +%s)
        step "$each" check
        echo "prove: $each proved ($(($(date +%s) - began)) s)"
    done
    step "$program" run
    touch -r "target/log/$program.began" "$made" # an edit during the build is later
fi
cp "$made" "target/bin/$program.$$"
chmod 755 "target/bin/$program.$$"
mv "target/bin/$program.$$" "target/bin/$program"
