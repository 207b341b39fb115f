# Sourced by ports/module and .ci/edits: copies of crates, in which rt proves what it has not proved yet.

# needed NAME...: those crates and all that they stand on, of this repository, each after those that it needs; the kit has the others
needed() {
    awk -v wanted="$*" '
        { sub(/#.*/, "") }
        split($0, line, ":") == 2 { split(line[1], name, " "); deps[name[1]] = line[2] }
        function visit(name,    names, count, i) {
            if (!(name in deps) || name in seen) return
            seen[name] = 1
            count = split(deps[name], names, " ")
            for (i = 1; i <= count; i++) visit(names[i])
            print name
        }
        END { count = split(wanted, all, " "); for (i = 1; i <= count; i++) visit(all[i]) }' crates.txt
}

# line_of NAME: a crate's line of crates.txt
line_of() { grep -E "^$1( staticlib)?:" crates.txt; }

# copy_crates PLACE NAME...: a repository of these crates and those below, with what is proved of each, and of a program its stored run
copy_crates() {
    local place=$1 name part
    shift
    mkdir -p "$place/crates" && git -C "$place" init -q && echo 'out/' >"$place/.gitignore" || return
    [ ! -f HANDLES ] || cp HANDLES "$place" || return
    for name in $(needed "$@"); do
        mkdir "$place/crates/$name" && line_of "$name" >>"$place/crates.txt" || return
        for part in src specs proofs stdin stdout args status data; do
            [ ! -e "crates/$name/$part" ] || cp -R "crates/$name/$part" "$place/crates/$name" || return
        done
    done
}
