# What the program is made of, for `./testkit` and `tools/keep_program`, which read this file at the top of the repository.

# Prints the folders of the sources of the crates that crates.txt has at `testkit` and below it, in the order of their names.
sources() {
    awk '
        { sub(/#.*/, ""); name = $1; sub(/:.*/, "", name); sub(/^[^:]*:/, ""); below[name] = $0 }
        function visit(name, words, at) {
            if (!(name in below) || visited[name]++) return
            print name
            for (at = split(below[name], words); at; at--) visit(words[at])
        }
        END { visit("testkit") }' crates.txt |
        LC_ALL=C sort |
        while read -r crate; do
            for part in proofs specs src; do
                [ -d "crates/$crate/$part" ] && echo "crates/$crate/$part"
            done
        done
}

# Says whether a program was made after the last change of its sources, by their times: `is_new PROGRAM`.
is_new() {
    [ -s "$1" ] && [ -x "$1" ] || return
    newer=$(find -L crates.txt $(sources) -newer "$1" -print -quit) && [ -z "$newer" ]
}

# Prints one sum of the names and the bytes of all sources, also of those that links lead to, and of no file that an editor left.
sum_of_sources() {
    find -L crates.txt $(sources) -type f ! -name '.*' ! -name '*~' -print0 | LC_ALL=C sort -z | xargs -0 sha256sum | sha256sum | cut -d ' ' -f 1
}

# Prints the sum of a program and of the sources of which it was made, which ./check leaves beside it: `sum_of_build PROGRAM SUM_OF_SOURCES`.
sum_of_build() {
    echo "$2 $(sha256sum <"$1" | cut -d ' ' -f 1)"
}
