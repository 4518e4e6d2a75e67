# Where the files of an installation lie. scripts/install and scripts/package read this file, with the repository's
# absolute path in `root`.

# The pages, examples and editors' files: those that git has, or without git those that the release lists.
tracked() {
    names=
    [ ! -e "$root/.git" ] ||
        names=$(git -c core.quotePath=false -C "$root" ls-files -- README.md docs examples editors 2>/dev/null)
    if [ -n "$names" ]; then
        printf '%s\n' "$names"
    else
        cat "$root/release/files.txt"
    fi
}

# The files that are installed elsewhere: each with its path in the repository and its path below the prefix.
ELSEWHERE='man/ga-bench.1 share/man/man1/ga-bench.1
completions/ga-bench.bash share/bash-completion/completions/ga-bench
completions/_ga-bench share/zsh/site-functions/_ga-bench
completions/ga-bench.fish share/fish/vendor_completions.d/ga-bench.fish'

# The first of the files that is missing.
missing() {
    printf '%s\n' "$ELSEWHERE" "$1" | while read -r file; do
        [ -f "$root/${file% share/*}" ] || printf '%s\n' "${file% share/*}"
    done | sed -n 1p
}

# Lays out all files but the program below a folder, as they are installed: in the pages a link to what isn't installed
# is plain text. If that fails, `reason` has why.
lay_out() {
    names=$(tracked 2>/dev/null) && gone=$(missing "$names") || gone=release/files.txt
    if [ -n "$gone" ]; then
        reason="$gone is missing: get it back (git checkout $gone)"
        return 1
    fi
    pages=$1/share/doc/ga-bench
    writes mkdir -p "$pages" "$1/share/ga-bench" && writes copy_pages || return
    while read -r file path; do
        writes install -D -- "$root/$file" "$1/$path" || return
    done <<LINES
$ELSEWHERE
LINES
    [ ! -d "$pages/editors" ] || writes mv -- "$pages/editors" "$1/share/ga-bench" || return
    writes find "$1" -type d -exec chmod 755 {} + && writes find "$1" -type f -exec chmod 644 {} + &&
        writes find "$pages" -name '*.md' -exec sed -i -E "$PLAIN" {} + &&
        writes sed -i "1i $FRONT\\n" "$pages/README.md"
}

copy_pages() {
    (cd "$root" && printf '%s\n' "$names" | tr '\n' '\0' | xargs -0 cp --parents -t "$pages" --)
}

PLAIN='s/\[([^]]*)\]\((\.\.\/)*(crates|tests|scripts)\/[^)]*\)/\1/g'
FRONT='Installed is the program `ga-bench`. What this page calls `./ga-bench`, `./test` and `scripts/` is in a clone of\
the repository.'
