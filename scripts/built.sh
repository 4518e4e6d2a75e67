# The program: whether it is there and current, and how to make it so, from the release or by a build. The commands
# ga-bench, test and those of scripts/ read this file, with the repository's absolute path in `root`.
#
#   out/ga-bench   the program: unpacked from the release, or a copy of what a proved build left in crates/ga_bench/out
#   out/stamp      the sum of the sources that it was built from; its time is from before they were read
#   out/placed     the size and the sum of the program; its time is from after it was put there
#   out/unpacked   there if the program is from the release
#   out/green      of the last ./test --prove, if it passed: the sums of the sources and of the program, and the toolchain
#   out/NAME.log   the log of a crate's last build
#   out/lock       held by whoever makes the program
#   out/new.PID, out/unpacking.PID   of the call that makes the program; the next one removes what a killed one left
#   release/       the program of a green ./test --prove, packed, and a text with the sum of its sources

out=$root/out
program=$out/ga-bench
stamp=$out/stamp
placed=$out/placed
release=$root/release/ga-bench

say() {
    printf 'ga-bench: %s\n' "$*" >&2
}

# Whether these commands are on PATH. If one isn't, says so; status 69 then.
has_commands() {
    for command; do
        command -v "$command" >/dev/null 2>&1 && continue
        say "this needs the command $command, which is not on PATH"
        return 69
    done
}

# One sum over the names and the texts of all that a build reads.
sources_sum() (
    cd "$root" && command -v sha256sum >/dev/null || exit 1
    {
        printf 'crates.txt\0'
        find crates \( -name out -o -name must-fail -o -name wrong-bodies \) -prune -o -type f \
            \( -path 'crates/*/src/*' -o -path 'crates/*/specs/*' -o -path 'crates/*/proofs/*' \) -print0
    } | LC_ALL=C sort -z | xargs -0 sha256sum | sum_of
)

# The SHA-256 of what is read.
sum_of() {
    sha256sum | cut -d ' ' -f 1
}

# Whether the program is that of the sources as they are now, and has not been touched since it was put there.
is_current() {
    [ -f "$program" ] && [ -x "$program" ] && [ -f "$stamp" ] && [ -r "$placed" ] || return 1
    [ "${GA_BENCH_BUILD:-}" = 1 ] && [ -f "$out/unpacked" ] && return 1
    is_untouched || is_same
}

# Whether the times and the size show it, as in most cases: no file and no folder has changed since the stamp, nor the
# program since it was put there. (The time of a file's last change of any kind can't be set back, and a file that is
# added, moved or removed changes its folder. The size is for a program that a crash has cut. A time to come shows that
# the clock was set back, and then no time shows anything.)
is_untouched() {
    read -r size _ <"$placed"
    changed=$(cd "$root" && find out/stamp out/placed out/ga-bench crates.txt crates \
        \( -name out -o -name must-fail -o -name wrong-bodies \) -prune \
        -o \( -path out/stamp -o -path out/placed \) \( ! -mmin -0 -o -print -quit \) \
        -o -path out/ga-bench \( ! -size "${size}c" -o -cnewer out/placed \) -print -quit \
        -o ! -path out/ga-bench -cnewer out/stamp -print -quit 2>&1) && [ -z "$changed" ]
}

# Whether the texts and the program's bytes are the same all the same, as after a git checkout and back. If so, the
# stamp gets a new time: that of the second in which this began.
is_same() {
    began=$(date +%s)
    sum=$(sources_sum) && [ "$sum" = "$(cat "$stamp" 2>/dev/null)" ] && is_whole || return 1
    touch -d "@$began" "$stamp" "$placed" 2>/dev/null
    return 0
}

# Whether the program has the sum that it had when it was put there.
is_whole() {
    [ -r "$placed" ] && read -r _ whole <"$placed" && [ "$(sum_of <"$program")" = "$whole" ]
}

# Runs a command that writes. If it fails, `reason` has why, in the system's words.
writes() {
    trouble=$("$@" 2>&1)
    case $? in
    0) return 0 ;;
    153) reason='File too large' ;;
    *) reason=${trouble##*: } ;;
    esac
    return 1
}

make_file() { true >>"$1"; }
empty_file() { true >"$1"; }
write_line() { printf '%s\n' "$2" >"$1"; }
unzip_into() { gzip -dc <"$release.gz" >"$1"; }

# Waits until no other call makes the program here. The lock goes when this process ends, however it ends. Whoever has
# it removes what a killed call left. Fails if nothing can be written here; then `reason` has why.
lock() {
    writes mkdir -p "$out" && writes make_file "$out/lock" || return 1
    exec 9>>"$out/lock"
    command -v flock >/dev/null 2>&1 || return 0
    if ! flock -n 9; then
        say 'another call is making the program here: waiting for it'
        flock 9
    fi
    rm -f "$out"/new.* "$out"/unpacking.*
}

unlock() {
    exec 9>&-
}

# Before the program is made: records the time and the sources. The caller holds the lock. Status 1 if the sources
# can't be read, 2 if nothing can be written here; then `reason` has why.
begin() {
    writes empty_file "$out/begun" || return 2
    begun_sum=$(sources_sum) && return 0
    say 'the sources cannot be read: this needs the command sha256sum on PATH'
    return 1
}

# Whether no source has changed since `begin`, nor been changed and put back.
is_as_begun() {
    touched=$(cd "$root" && find crates.txt crates \( -name out -o -name must-fail -o -name wrong-bodies \) -prune \
        -o -type f ! -name '*.md' -cnewer "$out/begun" -print -quit 2>&1) && [ -z "$touched" ] &&
        [ "$(sources_sum)" = "$begun_sum" ]
}

# Makes a copy of this file the program. Status 1 if the sources have changed since `begin`, 2 if it can't be
# written; then `reason` has why.
put_in_place() {
    new=$out/new.$$
    writes cp "$1" "$new" || return 2
    is_as_begun || return 1
    writes rm -f "$stamp" && writes mv -f "$new" "$program" && writes write_line "$new" "$(($(wc -c <"$1"))) $(sum_of <"$1")" &&
        writes mv -f "$new" "$placed" && writes write_line "$new" "$begun_sum" &&
        writes touch -r "$out/begun" "$new" && writes mv -f "$new" "$stamp" || return 2
}

# The record of a green `./test --prove` on sources with this sum: it, that of the program, and the toolchain.
green() {
    printf '%s %s %s\n' "$1" "$(sum_of <"$program")" "$(rt version)"
}

# The value behind a word and a colon in the text of the release.
released() {
    sed -n "s/^$1: //p" "$release.txt"
}

# Starts a program with arguments, in place of this process. It refuses a name for itself that isn't UTF-8, so if
# there are other letters than those of ASCII in its path, it gets one without, if /proc is there.
start() {
    case $1 in
    *[!\ -~]*)
        if [ -d /proc/self/fd ]; then
            exec 8<"$1"
            shift
            exec /proc/self/fd/8 "$@"
        fi
        ;;
    esac
    exec "$@"
}

# Whether there is a release of the sources with this sum, for this machine, undamaged. If not, `why` has the reason.
fits() {
    if [ "${GA_BENCH_BUILD:-}" = 1 ]; then
        why='not used, since GA_BENCH_BUILD is 1'
    elif [ ! -f "$release.gz" ] || [ ! -f "$release.txt" ]; then
        why='missing'
    elif [ -z "$(released sources)" ] || [ -z "$(released program)" ]; then
        why='damaged'
    elif [ "$1" != "$(released sources)" ]; then
        why='of other sources'
    elif [ "$(uname -sm)" != 'Linux x86_64' ]; then
        why="for Linux on x86-64, and this is $(uname -sm)"
    elif ! command -v gzip >/dev/null 2>&1; then
        why='packed, and no command gzip is on PATH: install gzip'
    elif [ "$(gzip -dc <"$release.gz" 2>/dev/null | sum_of)" != "$(released program)" ]; then
        why='damaged'
    else
        return 0
    fi
    return 1
}

# If a release of these sources is damaged or can't be unpacked, a build isn't what is needed: says what is. Status 70
# or 69 then.
name_obstacle() {
    case $why in
    damaged)
        say 'release/ga-bench.gz is damaged: get it back (git checkout release), or build with GA_BENCH_BUILD=1'
        return 70
        ;;
    packed*)
        say "the release is $why"
        return 69
        ;;
    esac
}

# Whether this machine is why the release can't be used. Then no more needs to be said.
is_of_machine() {
    [ "${why#for }" != "$why" ]
}

# Unpacks a release that fits into this file, and starts it once. Status 1 if it doesn't start on this machine, and
# then `why` has the reason; 2 if this file can't be written or started, and then `reason` has why.
unpack() {
    if ! writes unzip_into "$1" || ! writes chmod +x "$1"; then
        rm -f "$1"
        return 2
    fi
    started=$( (start "$1" --version) 2>&1 </dev/null)
    status=$?
    started=$(printf '%s\n' "$started" | sed q)
    case $status in
    0) return 0 ;;
    126) reason='programs cannot run there (is it mounted with noexec?)' ;;
    *) reason= ;;
    esac
    rm -f "$1"
    [ -z "$reason" ] || return 2
    why="not one that starts on this machine${started:+: $started}"
    here=
    case $started in
    *GLIBC_*) here=$(getconf GNU_LIBC_VERSION 2>/dev/null) || here='another C library' ;;
    *) [ -e /lib64/ld-linux-x86-64.so.2 ] || here='another C library' ;;
    esac
    [ -z "$here" ] || why="for glibc $(released glibc) or later, and this machine has $here"
    return 1
}

# Makes the program current for a call with these arguments: from the release, or else by a build. Statuses: 69
# without the toolchain, 70 if the build failed or nothing can be written.
make_current() {
    has_commands cat chmod cp cut date mkdir mv rm sed sort touch uname wc xargs || return
    if ! lock; then
        unpack_elsewhere "$@"
        return
    fi
    if [ -d "$program" ]; then
        say "a folder is at $program, where the program belongs: remove it, or move it away"
        return 70
    fi
    if is_current; then
        unlock
        return 0
    fi
    begin && use_release
    case $? in
    0)
        say 'unpacked the release'
        unlock
        ;;
    2)
        unlock
        say "cannot make the program in $out: $reason"
        unpack_elsewhere "$@"
        ;;
    *)
        [ -n "${begun_sum:-}" ] || return 70
        name_obstacle || return
        say "the release is $why"
        if is_question "$@"; then
            use_another
        else
            build
        fi
        ;;
    esac
}

# Puts the release in place. Status 1 if it doesn't fit, and then `why` has the reason; 2 if it can't be written or
# started here, and then `reason` has why.
use_release() {
    if [ -f "$program" ] && [ -f "$placed" ] && ! is_whole; then
        say "$program is not as it was put there"
    fi
    fits "$begun_sum" || return 1
    unpack "$out/unpacking.$$" || return
    writes empty_file "$out/unpacked" || return 2
    put_in_place "$out/unpacking.$$"
    made=$?
    rm -f "$out/unpacking.$$" "$out/new.$$"
    why='not put in place, since the sources changed'
    return $made
}

# If nothing can be written here, for a call with these arguments: unpacks the release into a temporary folder, which is
# removed before it starts.
unpack_elsewhere() {
    if ! fits "$(sources_sum)"; then
        name_obstacle || return
        if is_question "$@"; then
            say "the release is $why"
            use_another
            return
        fi
        is_of_machine || why="$why: copy this folder to where it can be written"
        say "cannot write to $out: $reason; the release is $why"
        return 70
    fi
    unpack_temporarily && return 0
    say "cannot unpack the release in $out, nor in the temporary folder ${TMPDIR:-/tmp} (TMPDIR): $reason"
    return 70
}

# Unpacks a release that fits into a temporary folder, and opens it there. If that fails, `reason` has why.
unpack_temporarily() {
    if [ ! -d /proc/self/fd ]; then
        reason='this needs /proc, which is not mounted'
        return 2
    fi
    writes mktemp -d || return 2
    folder=$trouble
    unpack "$folder/ga-bench"
    made=$?
    [ $made != 0 ] || exec 8<"$folder/ga-bench"
    [ $made != 1 ] || reason="it is $why"
    rm -rf "$folder"
    program=/proc/self/fd/8
    return $made
}

# Whether these arguments, or none, ask for help or the version, for which nothing is built.
is_question() {
    [ "${1:-help}" = help ] && return 0
    for word; do
        case $word in
        -[hV]* | --help | --version) return 0 ;;
        --) return 1 ;;
        esac
    done
    return 1
}

# For a question: takes the program of other sources, if there is one.
use_another() {
    unlock
    if [ -f "$program" ] && [ -x "$program" ] && is_whole; then
        say 'so this answer is from the program that is here; another command proves and builds it anew'
        return 0
    fi
    GA_BENCH_BUILD=
    if fits "$(released sources)"; then
        unpack_temporarily
        case $? in
        0)
            say 'this answer is from the release all the same; another command proves and builds the program'
            return 0
            ;;
        2)
            say "cannot unpack the release in the temporary folder ${TMPDIR:-/tmp} (TMPDIR): $reason"
            return 70
            ;;
        esac
    fi
    is_of_machine || say 'no program is here yet: --help and --version build none, another command does'
    return 69
}

# Names the first source that git finds changed, and how to get it back.
name_changed() {
    changed=$(git -C "$root" diff --name-only HEAD -- \
        crates.txt 'crates/*/src/*' 'crates/*/specs/*' 'crates/*/proofs/*' \
        2>/dev/null | sed -n 1p)
    [ -z "$changed" ] || say "$changed has changed: git checkout $changed gets it back"
}

# Proves and builds the program. The caller holds the lock.
build() {
    if ! command -v rt >/dev/null 2>&1; then
        if ! is_of_machine; then
            say 'proving and building the program needs rt, the command of the Rattle toolchain, which is not on PATH'
            say 'only changed sources need it: with the sources of the release its program runs as it is'
            name_changed
        fi
        return 69
    fi
    say 'proving and building the program: this can take an hour, once'
    while :; do
        begin && python3 "$root/scripts/prove.py" "$root" || return 70
        put_in_place "$root/crates/ga_bench/out/ga_bench"
        case $? in
        0) break ;;
        1) say 'the sources changed during the build: building again' ;;
        *)
            say "cannot put the built program into $out: $reason"
            return 70
            ;;
        esac
    done
    rm -f "$out/unpacked"
    say 'the program is built'
    unlock
}
