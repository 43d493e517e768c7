# Read by the run scripts of bindings/, fuzz/, formats/, controller/ and cli/, and by badge: finds the archive, and has it built
# where it is missing or older than its sources. (rt ci takes the archive away, and what is proved is kept.) They set `root` first,
# the repository's root.

own=$root/crates/exports/out/libexports.a

# Ends the script with one line.
die() {
    echo "$0: $1" >&2
    exit 1
}

# need TOOL WHAT: stops where a tool is missing, and says what it is.
need() {
    command -v "$1" >/dev/null 2>&1 || die "$1 is missing: $2"
}

# older FILE SOURCE..: whether a file is not there, or has a newer source. A folder is newer where a file of it came or went.
older() {
    file=$1
    shift
    [ ! -f "$file" ] || [ -n "$(find "$@" -newer "$file" -print -quit)" ]
}

# library_older FILE SOURCE..: the same, with the library's sources beside those that are named. What rt keeps in a crate's out/
# is no source, nor is it one that this folder came or went.
library_older() {
    older "$@" "$root/crates.txt" ||
        [ -n "$(find "$root/crates" -mindepth 2 -name out -prune -o -newer "$1" -print -quit)" ]
}

# Sets `archive` to the file that BADGE_DITHER_LIB names, or to the repository's own.
name_archive() {
    archive=$own
    if [ -n "${BADGE_DITHER_LIB:-}" ]; then
        archive=$(realpath -e -- "$BADGE_DITHER_LIB" 2>/dev/null) && [ -f "$archive" ] ||
            die "BADGE_DITHER_LIB names no file: $BADGE_DITHER_LIB"
    fi
}

# An archive that was named is taken as it is.
archive_older() {
    [ -z "${BADGE_DITHER_LIB:-}" ] && library_older "$own"
}

# Proves the library and compiles it; each crate that is proved is named. Standard input and output are the script's own.
build_archive() {
    need rt "the Rattle toolchain's command (or set BADGE_DITHER_LIB to a built libexports.a)"
    echo "${0##*/}: proving and compiling the library, by rt lib; once, and from nothing some minutes" >&2
    mkdir -p "$root/target" || die "$root/target can't be written to"
    log=$root/target/archive.log
    (cd "$root/crates/exports" && rt lib 2>&1 || echo "rt failed") </dev/null | tee "$log" |
        sed -un "/^crate \([^ ]*\): .*/ { s//${0##*/}: \1 proved/; h; }; /^logic=proved/ { g; p; }" >&2
    [ "$(tail -n 1 "$log")" != "rt failed" ] && [ -f "$own" ] || die "rt lib in crates/exports failed; $log has what it said"
}

find_archive() {
    name_archive
    if archive_older; then build_archive; fi
}
