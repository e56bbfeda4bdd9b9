//! The second program: an independent implementation of documents 01 and 02, by other means than the proved one
//! and without any of its code, tables or constants. A call answers its values, or its refusal number.

#![forbid(unsafe_code)]

pub mod ascii;
pub mod ascii_tag;
pub mod binary;
pub mod calendar;
mod ccs;
mod cds;
mod cuc;
pub mod cuc_tag;
pub mod drift;
pub mod leap;
pub mod listing;
mod octets;
pub mod program;
pub mod receiver;
pub mod rng;
pub mod scale;
