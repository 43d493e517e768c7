//! Makes the copy of the original that is measured: `plain.rs` in OUT_DIR, in
//! which the text is complete and nothing is added to it but the stand-ins
//! around it.

#[path = "../oracle/build/original.rs"]
mod original;

fn main() {
    original::write("plain.rs", &original::texts());
}
