# Read by the run scripts here and in controller/: has the lookups over records compiled as functions of their own, for C to call.
# The crate `records` exports nothing. So a repository is made that has a crate more, which exports the recorded cases of the three
# lookups, and with them the lookups; it is proved, and its module is written. (It is made among the temporary files and removed
# again: rt ci takes no second repository within this one.) In the module the lookups are functions of no other's, which the
# compiler would put into their caller; in its text they are opened to all, under names that C can call. Nothing else of the
# module is changed. The script reads bindings/module.sh, and sets `root`, the repository's root, and `built`, where things are
# built, first.

# Proves the crate, in the repository `made`.
prove_lookups() {
    made=$(mktemp -d)
    trap 'rm -rf "$made"' EXIT
    cp -R "$root/crates" "$root/crates.txt" "$made/" # with what is proved already, in each out/: it is not proved again
    mkdir -p "$made/crates/record_stack/src"
    cat >"$made/crates/record_stack/src/lib.rt" <<'END'
// A way to the lookups over records.
#![tactic(auto)]

use recorded::Room;

// The recorded case of a lookup, by its line.
#[unsafe(no_mangle)]
pub extern "C" fn record_stack(line: &[u8]) -> bool {
    let mut room = Room::new();
    room.decode(line);
    record_cases::same(recorded::byte_at(line, 0), &room)
}
END
    echo "record_stack staticlib: recorded record_cases" >>"$made/crates.txt"
    (cd "$made/crates/record_stack" && rt lib) >"$built/records.log" 2>&1 \
        || die "the lookups were not proved: $built/records.log"
}

# Sets `lookups` to the module, as text, which is written where it is missing or older than the sources.
find_lookups() {
    lookups=$built/records.ll
    if library_older "$lookups" "$root/fuzz/records.sh" "$root/bindings/module.sh"; then
        echo "${0##*/}: proving the lookups over records as functions of their own; some minutes" >&2
        prove_lookups
        (cd "$made" && write_module record_stack "$built/record_stack.bc")
        write_text "$built/record_stack.bc" "$built/record_stack.ll"
        sed '/^define internal .*@"records::\(nearest\|nearest_two\|ordered_bracket\)"(/s/internal \(.*)\)/\1 noinline/
            s/@"records::\(nearest\|nearest_two\|ordered_bracket\)"(/@records_\1(/' "$built/record_stack.ll" >"$lookups.new"
        [ "$(grep -c '^define void @records_.* noinline ' "$lookups.new")" -eq 3 ] || die "the module has not the three lookups: $lookups.new"
        mv "$lookups.new" "$lookups"
    fi
}
