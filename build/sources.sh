# What the program is made from: functions for ./ringcheck and build/*.py.

# Prints the lines of FOLDER/crates.txt for rc_main and for what it stands on, lowest first, without comments.
crates_below() {
    awk '
        { sub(/#.*/, "") }
        NF {
            name = uses = $0
            sub(/:.*/, "", name)
            sub(/^[^:]*:?/, "", uses)
            split(name, words)
            line[words[1]] = $0
            below[words[1]] = uses
        }
        function visit(name, parts, count, at) {
            if (!(name in line) || (name in seen)) return
            seen[name]
            count = split(below[name], parts)
            for (at = 1; at <= count; at++) visit(parts[at])
            print line[name]
        }
        END { visit("rc_main") }
    ' "$1/crates.txt"
}

# Prints those crates' folders of these parts, such as src, as seen from FOLDER: a line for each that is there.
parts_below() {
    local folder=$1 name part
    shift
    crates_below "$folder" | while read -r name _; do
        for part; do
            [ ! -d "$folder/crates/${name%%:*}/$part" ] || echo "crates/${name%%:*}/$part"
        done
    done
}

# Prints the files that an unproved program is made from, as seen from FOLDER, besides those lines of crates.txt.
# Definitions and proofs aren't among them.
sources_below() (
    mapfile -t parts < <(parts_below "$1" src)
    [ ${#parts[@]} -gt 0 ] && cd "$1" && find "${parts[@]}" -type f -name '*.rt' | LC_ALL=C sort
)

# Prints the sum of all that an unproved program is made from.
sum_of_sources() (
    set -o pipefail
    cd "$1" && [ -n "$(sources_below .)" ] || exit
    {
        crates_below .
        sources_below . | xargs -d '\n' sha256sum
    } | sha256sum | cut -c 1-16
)
