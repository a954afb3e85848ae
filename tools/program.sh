# What the program faasm is built from, and what a release of it says; read by ../faasm and by release. Needs `top`.
# shellcheck shell=bash

release=$top/release
program=$top/crates/faasm_cli/out/faasm_cli

# The crates of the program by name, one a line: faasm_cli and all that it stands on here.
program_crates() {
    awk -F': *' '!/^#/ && NF { split($1, name, " "); below[name[1]] = $2 }
        function visit(c,   i, n, parts) {
            if (!(c in below) || c in seen) return
            seen[c] = 1; print c
            n = split(below[c], parts, " ")
            for (i = 1; i <= n; i++) visit(parts[i])
        }
        END { visit("faasm_cli") }' "$top/crates.txt"
}

# What the program is proved and built from: files and folders, since a source that is gone changes its folder.
program_sources() {
    local name part
    printf '%s\n' "$top/crates.txt" "$top/HANDLES"
    program_crates | while IFS= read -r name; do
        for part in src specs proofs; do
            [ -d "$top/crates/$name/$part" ] && printf '%s\n' "$top/crates/$name/$part"
        done
    done
}

# Whether no source is newer than this file.
is_newer_than_sources() {
    local sources
    [ -e "$1" ] || return 1
    mapfile -t sources < <(program_sources)
    [ -z "$(find "${sources[@]}" -newer "$1" -print -quit)" ]
}

# One checksum of all sources, by their names from the top and their content. Of crates.txt only the program's lines count.
sources_sum() {
    local names
    names=$(program_crates | LC_ALL=C sort)
    (
        cd -- "$top" || exit 1
        while IFS= read -r name; do grep -E "^$name( [^:]*)?:" crates.txt; done <<<"$names"
        sha256sum HANDLES
        while IFS= read -r name; do
            for part in src specs proofs; do
                [ -d "crates/$name/$part" ] && find "crates/$name/$part" -type f -print0
            done
        done <<<"$names" | LC_ALL=C sort -z | xargs -0 sha256sum
    ) | sha256sum | cut -d' ' -f1
}

file_sum() {
    sha256sum -- "$1" | cut -d' ' -f1
}

# A line of the release's own page, by its first word.
release_says() {
    sed -n "s/^$1 //p" "$release/about" 2>/dev/null
}

# Whether there is a release for this machine, and it is the program that its page tells.
has_release() {
    [ -x "$release/faasm" ] && [ "$(uname -s -m)" = 'Linux x86_64' ] &&
        [ "$(file_sum "$release/faasm")" = "$(release_says program)" ]
}
