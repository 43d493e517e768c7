//! The judge of the port: the original's dithering, an independent model of it,
//! what each call of the C interface must answer, and a driver that compares a
//! port with that.

// The original, with probes and hooks (`build.rs`), stands at the crate's root,
// where its own paths expect it.
include!(concat!(env!("OUT_DIR"), "/hooked.rs"));

pub mod account;
pub mod archive;
pub mod case;
pub mod cells;
pub mod drive;
pub mod examples;
pub mod generate;
pub mod hooks;
pub mod jobs;
pub mod lumas;
pub mod mock;
pub mod model;
pub mod original;
pub mod port;
pub mod record;
pub mod reference;
pub mod rng;
pub mod text;
pub mod words;
