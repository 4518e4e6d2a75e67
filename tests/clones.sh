# Clones of the repository for the tests of the launcher, of installing and of the package, and the counts of a test.
# They read this file, with the program under test in `given`, an absolute path.

root=$(CDPATH='' cd -- "$(dirname -- "$(readlink -f -- "${BASH_SOURCE[0]}")")/.." && pwd -P) || exit 1
room=$(mktemp -d) || exit 1
mounts=()
trap 'for it in "${mounts[@]}"; do umount "$it"; done; rm -rf "$room"' EXIT
passed=0
failed=0

# The repository as a fresh clone has it, with the program under test as its release.
whole=$room/whole
mkdir -p "$whole/release"
for part in ga-bench scripts examples man completions docs README.md editors crates.txt; do
    [[ ! -e $root/$part ]] || cp -r "$root/$part" "$whole"
done
for part in src specs proofs; do
    for crate in "$root"/crates/*/"$part"; do
        at=$whole/crates/$(basename "${crate%/*}")
        mkdir -p "$at" && cp -r "$crate" "$at"
    done
done
gzip -9nc "$given" >"$whole/release/ga-bench.gz"
# A clone of a test has no git, so it has this list of what is installed.
(. "$root/scripts/layout.sh" && tracked) >"$whole/release/files.txt"

# The text of a release: of the sources with this sum, and of this program.
describe() {
    printf 'sources: %s\nprogram: %s\nglibc: 2.34\n' "$1" "$(sha256sum <"$2" | cut -d ' ' -f 1)"
}

# Makes the release of $whole one of its sources as they are, whose sum is kept in `sources`.
release_whole() {
    sources=$(root=$whole && . "$whole/scripts/built.sh" && sources_sum)
    describe "$sources" "$given" >"$whole/release/ga-bench.txt"
}

# Leaves one crate in $whole. Its copies are made faster then, and are as good for most cases.
shrink_whole() {
    find "$whole/crates" -mindepth 1 -maxdepth 1 ! -name ga_word -exec rm -r {} +
    release_whole
}

# A fresh clone of its own, in $clone.
fresh() {
    clone=$room/clone
    rm -rf "$clone"
    cp -r "$whole" "$clone"
}

# Counts a check with the status $1.
count() {
    if (($1 == 0)); then
        passed=$((passed + 1))
    else
        failed=$((failed + 1))
        echo "FAILED $2"
    fi
}

# Mounts a file system in memory, with this option, at a folder. As another user than root it can't.
mounted() {
    mkdir -p "$2" && mount -t tmpfs -o "$1" tmpfs "$2" 2>/dev/null && mounts+=("$2")
}

# Prints the counts under this name. The status is 0 if nothing failed.
finish() {
    echo "$1: $passed passed, $failed failed"
    ((failed == 0))
}
