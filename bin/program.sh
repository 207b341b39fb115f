# shellcheck shell=sh disable=SC2154 # the script that sources this has set $here
# Sourced first by the script of each program, which has set $here (this folder), sets what differs and calls `run "$@"`: $name, $sample, $about
# and $example (for --help); and where they are wanted $bytes (yes where the program writes a book's bytes), $heading (names of the columns, for a
# terminal), $usage and $count where other arguments are right, $option (a word: with --WORD the program is given it too and reads nothing), and
# $files, the names for --help of the files that it may write, one or two, which are whole or not there (whole.sh), with what is said besides of one
# that is not written ($unwritten).
name='' sample='' about='' example='' bytes='' heading='' usage='' count='' option='' files='' unwritten='' # none comes from the environment
root=${here%/*}
. "$here/whole.sh"

# A standard descriptor that is closed is opened the wrong way round: the program's first read or write of it fails, and the program says so.
{ true 9<&0; } 2>/dev/null || exec 0>/dev/null
{ true 9>&1; } 2>/dev/null || exec 1</dev/null
{ true 9>&2; } 2>/dev/null || exec 2>/dev/null

say() { printf 'bin/%s: %s\n' "$name" "$*" >&2 || :; }
stop() { status=$1; shift; say "$@"; exit "$status"; }
misused() { stop 2 "$*; usage: bin/$name $(arguments), and bin/$name --help says more"; }

# The arguments as --help has them: [FILE|- [BOOK]] where a book may be written.
arguments() {
    [ -z "$usage" ] || { printf '%s' "$usage"; return; }
    front='[FILE|-' back=']'
    for file in $files; do front="$front [$file" back="$back]"; done
    printf '%s%s' "$front" "$back"
}

help() {
    cat <<END
usage: bin/$name $(arguments)

$about

  FILE        what it reads; without an argument $sample
  -           it reads standard input
END
    for file in $files; do printf '  %-11s the file to write: whole, or it stays as it was\n' "$file"; done
    cat <<END
  -h, --help  prints this; --version prints the version

Exit status 0: all right.
Exit status 1: the input was refused, is unfinished or could not be read, or the
output could not be written.
Exit status 2: a wrong argument, or no such file.

Example: $example
END
}

# By git where this is a repository of it, else what bin/release wrote beside this file.
version() {
    described=
    [ ! -e "$root/.git" ] || described=$(git -c safe.directory="$root" -C "$root" describe --tags --always --dirty 2>/dev/null) || described=
    [ -n "$described" ] || described=$(cat "$here/version.txt" 2>/dev/null) || described='of no release'
    printf 'farm book, bin/%s %s\n' "$name" "$described"
}

# named FILE: `-` for each name of standard input.
named() {
    case $1 in
    /dev/stdin | /dev/fd/0 | /proc/self/fd/0) printf '%s' - ;;
    *) printf '%s' "$1" ;;
    esac
}

# readable FILE [WHAT]: a file that can be opened, or standard input.
readable() {
    case $1 in
    '') misused "the name of ${2:-the file} is empty" ;;
    -) return ;;
    -*) misused "there is no option $1" ;;
    esac
    [ -e "$1" ] || stop 2 "there is no file $1"
    [ ! -d "$1" ] || stop 2 "$1 is a folder, not a file"
    [ -r "$1" ] || stop 2 "the file $1 can't be read"
}

# The crates of this repository that the program needs, itself the last: a crate's line of crates.txt names what it needs.
needed() {
    awk -v program="${name}_main" '
        function mark(crate, list, n, i) {
            if (crate in marked || !(crate in needs)) return # the kit has the others
            marked[crate] = 1
            n = split(needs[crate], list, " ")
            for (i = 1; i <= n; i++) mark(list[i])
            print crate
        }
        { sub(/#.*/, ""); if (split($0, part, ":") == 2) needs[part[1]] = part[2] }
        END { mark(program) }
    ' "$root/crates.txt"
}

# Whether the program is not there, or older than the source of a crate that it needs.
stale() {
    [ -x "$program" ] || return 0
    [ -d "$root/crates" ] || return 1 # a copy without sources
    # shellcheck disable=SC2046 # names of crates
    [ -n "$(cd "$root/crates" && find $(needed) -name out -prune -o -name '*.rt' -newer "$program" -print)" ]
}

# places OF: of what prove.sh prints, a line for each crate that it proves, with its place among so many.
places() {
    place=0
    while IFS= read -r line; do
        case $line in 'prove: '*' proved ('*')') ;; *) continue ;; esac
        place=$((place + 1)) crate=${line#prove: } took=${line##*(}
        case $took in *' s)') say "$place of $1: ${crate%% *} proved, ${took%)}" ;; esac
    done
}

# The program gets the time of before its build: a source that is edited during it is newer, and the program is built again.
build() {
    command -v rt >/dev/null || stop 1 "the program is to be built, and the Rattle kit's command rt is not there: see README.md"
    log=$root/target/log/bin-$name.txt
    { mkdir -p "${log%/*}" "${program%/*}" && true >>"$root/target/lock" && true >>"$log"; } 2>/dev/null ||
        stop 1 "the program is to be built, and $root/target can't be written"
    exec 9>>"$root/target/lock"
    ! command -v flock >/dev/null || flock 9 # in a pipe two programs may want to be built
    if stale; then
        say "building, which takes some minutes the first time; each crate is reported when it is proved"
        touch "$root/target/lock"
        # rt runs the program on no input, and the descriptors of this script are none of that run's: a status or a second book
        failed=$({ { "$here/prove.sh" "${name}_main" </dev/null 2>&1 3>&- 5<&- 9>&- || echo failed >&3; } |
            tee "$log" | places "$(needed | wc -l)"; } 3>&1 >&2)
        [ -z "$failed" ] || { tail -n 20 "$log" >&2; stop 1 "the build failed: $log has all of it"; }
        touch -r "$root/target/lock" "$program"
    fi
    exec 9>&-
}

# counted: how many arguments are right, in words.
counted() {
    case $files in
    '') printf '%s' "${count:-one argument at most}" ;;
    *' '*) printf 'three arguments at most' ;;
    *) printf 'two arguments at most' ;;
    esac
}

# run "$@": runs the program on a file, on standard input (-) or, with no argument, on the sample, and where they are named writes files; builds it
# where it is stale.
run() {
    program=$root/target/bin/${name}_main
    # shellcheck disable=SC2086 # names without blanks
    [ $# -le $(set -- $files && echo $(($# + 1))) ] || misused "$(counted)"
    input=$(named "${1-$root/$sample}") more=
    case $input in
    -h | --help) help; exit 0 ;;
    --version) version; exit 0 ;;
    "--${option:-help}")
        [ $# -eq 1 ] || misused "--$option stands alone"
        more=$option input=/dev/null bytes='' heading='' # a text, for a terminal too
        ;;
    *) readable "$input" ;;
    esac
    [ "$(uname -m)" = x86_64 ] || stop 1 "the program is for x86-64; ports/run runs it in WebAssembly, and bin/farmbook opens the page: see README.md"
    if [ $# -gt 1 ]; then
        shift
        begin "$@"
        heading=''
    elif [ "$bytes" = yes ] && [ -t 1 ]; then
        stop 2 "a book's bytes are not for a terminal: write them to a file, as in $example"
    fi
    ! stale || build

    set -- "$program"
    [ "$input" = - ] || exec <"$input"
    [ -z "$heading" ] || [ ! -t 1 ] || printf '%s\n' "$heading" >&2 || :

    # A program has no exit status: with the word `status` it writes, as its last act, a digit on descriptor 3: 0; 1; or 2 for status 1 of a program
    # whose output is whole all the same. With the word `list` it writes its list on descriptor 4. It gets the error of a closed pipe.
    trap '' PIPE
    if [ -n "$book" ]; then exec 7>"$book"; else exec 7>&1; fi
    [ -z "$list" ] || more=list
    exec 6>"${list:-/dev/null}"
    good=yes
    status=$("$@" status ${more:+"$more"} 3>&1 >&7 7>&- 4>&6 6>&-) || status=
    exec 6>&- 7>&-
    case $status in
    0) ;;
    1) good=no ;;
    2) status=1 ;;
    *) say "the program did not come to its end"; good=no status=1 ;;
    esac
    [ -z "$book" ] || settle "$good" || status=1
    exit "$status"
}
