//! Sheets: a canvas with lines, text in a small font and pictures, and PNG files
//! of it or of any other pixels. The same input gives the same bytes everywhere.

pub mod canvas;
pub mod font;
pub mod png;
