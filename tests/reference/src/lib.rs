//! A second, plain implementation of the lookups, from the thesis and documents 01 and 02 alone.
//!
//! Integers are signed and 64 bits wide, products are schoolbook ones, and words are reduced modulo 2^32
//! at the end of each operation.

#![deny(warnings)]

pub mod calls;
pub mod classes;
pub mod gadget;
pub mod lookup;
pub mod lwe;
pub mod polynomial;
pub mod torus;
pub mod trgsw;
pub mod trlwe;
