//! An independent model of paper 01 and requests 1, 2, 3, 4, 5, 6, 7, 8, 10, 11, 12 and 13 of paper 02, and generators of inputs for it.

pub mod generate;
pub mod hex;
pub mod hex_files;
pub mod model;
pub mod packed;
pub mod price;
pub mod price_texts;
pub mod random;
pub mod writer;
