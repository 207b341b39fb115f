# shellcheck shell=sh disable=SC2154 # program.sh, which sources this, has set $input
# Files that are whole or not there: each is written beside its place under another name, and takes its own when it is whole and on the disk. Whatever
# stops the program, what was there before stays. Of a book, and of
# a list beside it, what is being written, its place, and its name as it was given:
book='' book_place='' book_name='' list='' list_place='' list_name=''

# place_of FILE: prints where FILE is to be written, links followed; refuses what is no place for a file.
place_of() {
    case $1 in
    '') misused "the name of a file to write is empty" ;;
    -) misused "- is no file to write: without it standard output is written" ;;
    -*) misused "there is no option $1" ;;
    */) stop 2 "$1 is the name of a folder, not of a file" ;;
    esac
    place=$(readlink -f -- "$1") || stop 2 "there is no folder for $1, or it is a link to itself"
    [ ! -d "$place" ] || stop 2 "$1 is a folder, not a file"
    [ ! -e "$place" ] || [ -f "$place" ] || stop 2 "$1 is no plain file, and is not replaced"
    ! one_file "$place" "$input" || stop 2 "$1 is the file that is read: write to another"
    [ ! -e "$place" ] || [ -w "$place" ] || stop 1 "the file $1 may not be written"
    printf '%s' "$place"
}

# one_file PLACE INPUT: whether the input is the file at PLACE.
one_file() {
    case $2 in
    -) [ "$1" -ef /dev/stdin ] ;;
    *) [ "$1" -ef "$2" ] ;;
    esac
}

# make MADE FILE: makes a new file; what a killed process of the same number left goes first.
make() {
    rm -f "$1" 2>/dev/null || :
    (set -C && true >"$1") 2>/dev/null || stop 1 "$2 can't be written: its folder takes no new file"
}

# begin BOOK [LIST]: both places are looked at before a file is made; what is made goes again, however this ends.
begin() {
    book_name=$1 book_place=$(place_of "$1")
    if [ $# -eq 2 ]; then
        list_name=$2 list_place=$(place_of "$2")
        [ "$list_place" != "$book_place" ] && ! [ "$list_place" -ef "$book_place" ] || stop 2 "$1 and $2 are one file"
    fi
    trap 'rm -f "$book" "$list"' EXIT
    trap 'exit 129' HUP
    trap 'exit 130' INT
    trap 'exit 143' TERM
    # named before they are made: a signal in between leaves none
    book=${book_place%/*}/.farmbook-$$-1
    make "$book" "$book_name"
    [ $# -eq 2 ] || return 0
    list=${list_place%/*}/.farmbook-$$-2
    make "$list" "$list_name"
}

# on_disk MADE PLACE FILE: the bytes are on the disk; owner and mode are those of the file that is replaced.
on_disk() {
    if [ -e "$2" ]; then
        chown --reference="$2" "$1" 2>/dev/null || :
        chmod --reference="$2" "$1" 2>/dev/null || :
    fi
    sync "$1" || { say "$3 could not be brought to the disk"; return 1; }
}

# take MADE PLACE FILE: the file takes its name.
take() { mv -f "$1" "$2" || { say "$3 could not take its name"; return 1; }; }

# left PLACE FILE: says what became of a file that was not written.
left() {
    [ -n "$1" ] || return 0
    if [ -e "$1" ]; then say "$2 stays as it was$unwritten"; else say "$2 is not written$unwritten"; fi
}

# settle GOOD: where GOOD is yes the files take their names, the list first; else, or where one can't, what was there stays, and that is said.
settle() {
    if [ "$1" = yes ] && on_disk "$book" "$book_place" "$book_name" &&
        { [ -z "$list" ] || { on_disk "$list" "$list_place" "$list_name" && take "$list" "$list_place" "$list_name"; }; } &&
        take "$book" "$book_place" "$book_name"; then
        return 0
    fi
    left "$book_place" "$book_name"
    left "$list_place" "$list_name"
    return 1
}
