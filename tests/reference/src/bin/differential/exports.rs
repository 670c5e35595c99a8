//! The exports of the library under test, called with the numbers and slices of a call.

use reference::calls::Call;

/// A call and its two sisters.
#[derive(Clone, Copy, Debug, PartialEq, Eq)]
pub enum Export {
    Number,
    Bound,
    Gates,
}

/// A lent slice as it crosses the boundary.
#[derive(Clone, Copy)]
pub struct Lent {
    pub start: *mut u8,
    pub length: usize,
}

/// Declares a call and its sisters, and a function that passes them numbers and slices.
macro_rules! exports {
    ($module:ident: $number:ident $bound:ident $gates:ident ($($value:ident)*) ($($slice:ident)*)) => {
        mod $module {
            use super::{Export, Lent};

            extern "C" {
                fn $number($($value: u64,)* $($slice: *mut u8, _: usize),*) -> u32;
                fn $bound($($value: u64,)* $($slice: *mut u8, _: usize),*) -> u64;
                fn $gates($($value: u64,)* $($slice: *mut u8, _: usize),*) -> u64;
            }

            pub unsafe fn call(export: Export, numbers: &[u64], slices: &[Lent]) -> u64 {
                let &[$($value),*] = numbers else { panic!("a wrong count of numbers") };
                let &[$($slice),*] = slices else { panic!("a wrong count of slices") };
                match export {
                    Export::Number => $number($($value,)* $($slice.start, $slice.length),*).into(),
                    Export::Bound => $bound($($value,)* $($slice.start, $slice.length),*),
                    Export::Gates => $gates($($value,)* $($slice.start, $slice.length),*),
                }
            }
        }
    };
}

exports!(encrypt_classes: cikenuma_encrypt_classes cikenuma_encrypt_classes_bound cikenuma_encrypt_classes_gates
    (n m s) (key mask errors classes sample));
exports!(decrypt_classes: cikenuma_decrypt_classes cikenuma_decrypt_classes_bound cikenuma_decrypt_classes_gates
    (n m s) (key sample classes));
exports!(decrypt_scalar: cikenuma_decrypt_scalar cikenuma_decrypt_scalar_bound cikenuma_decrypt_scalar_gates
    (n m) (key scalar class_word));
exports!(extract: cikenuma_extract cikenuma_extract_bound cikenuma_extract_gates
    (n p) (sample scalar));
exports!(encrypt_selector: cikenuma_encrypt_selector cikenuma_encrypt_selector_bound cikenuma_encrypt_selector_gates
    (n g l bit) (key masks errors block));
exports!(external_product: cikenuma_external_product cikenuma_external_product_bound cikenuma_external_product_gates
    (n g l w amplitude sample_amplitude) (block sample out));
exports!(cmux: cikenuma_cmux cikenuma_cmux_bound cikenuma_cmux_gates
    (n g l w amplitude amplitude0 amplitude1) (block sample0 sample1 out));
exports!(lookup: cikenuma_lookup cikenuma_lookup_bound cikenuma_lookup_gates
    (n g l w m s d) (blocks amplitudes classes sample work));
exports!(lookup_vertical: cikenuma_lookup_vertical cikenuma_lookup_vertical_bound cikenuma_lookup_vertical_gates
    (n g l w m s d) (blocks amplitudes classes sample work));
exports!(lookup_hidden: cikenuma_lookup_hidden cikenuma_lookup_hidden_bound cikenuma_lookup_hidden_gates
    (n g l w m s d) (blocks amplitudes samples sample_amplitudes sample work));
exports!(lookup_hidden_vertical:
    cikenuma_lookup_hidden_vertical cikenuma_lookup_hidden_vertical_bound cikenuma_lookup_hidden_vertical_gates
    (n g l w m s d) (blocks amplitudes samples sample_amplitudes sample work));

/// # Safety
/// Every slice can be read and written over its whole length, and none overlaps another.
pub unsafe fn call(call: Call, export: Export, numbers: &[u64], slices: &[Lent]) -> u64 {
    let function = match call {
        Call::EncryptClasses => encrypt_classes::call,
        Call::DecryptClasses => decrypt_classes::call,
        Call::DecryptScalar => decrypt_scalar::call,
        Call::Extract => extract::call,
        Call::EncryptSelector => encrypt_selector::call,
        Call::ExternalProduct => external_product::call,
        Call::Cmux => cmux::call,
        Call::Lookup => lookup::call,
        Call::LookupVertical => lookup_vertical::call,
        Call::LookupHidden => lookup_hidden::call,
        Call::LookupHiddenVertical => lookup_hidden_vertical::call,
    };
    function(export, numbers, slices)
}
