//! The library's entry points: the one place that leaves Rust.
//!
//! A slice goes over as a pointer and a length, which are those of a Rust slice here. The library
//! reads no byte beyond them, writes none of a slice that it only reads, and keeps no pointer. A
//! slice that it writes is lent as `&mut`, so no other slice of the call shares its bytes.

/// One line for each entry: its name here, its symbol, and its inputs.
macro_rules! entries {
    ($($(#[$doc:meta])* $name:ident = $symbol:ident($($inputs:tt)*);)*) => {
        $(entry! { [$(#[$doc])*] $name $symbol [] [] [] $($inputs)*, })*
    };
}

/// Takes over one input after the other: as the library declares it, as Rust does, and as it is
/// passed on.
macro_rules! entry {
    ($doc:tt $name:ident $symbol:ident [$($there:tt)*] [$($here:tt)*] [$($passed:tt)*]
        $input:ident: &[u8], $($rest:tt)*) => {
        entry! { $doc $name $symbol
            [$($there)* _: *const u8, _: usize,]
            [$($here)* $input: &[u8],]
            [$($passed)* $input.as_ptr(), $input.len(),]
            $($rest)* }
    };
    ($doc:tt $name:ident $symbol:ident [$($there:tt)*] [$($here:tt)*] [$($passed:tt)*]
        $input:ident: &mut [u8], $($rest:tt)*) => {
        entry! { $doc $name $symbol
            [$($there)* _: *mut u8, _: usize,]
            [$($here)* $input: &mut [u8],]
            [$($passed)* $input.as_mut_ptr(), $input.len(),]
            $($rest)* }
    };
    ($doc:tt $name:ident $symbol:ident [$($there:tt)*] [$($here:tt)*] [$($passed:tt)*]
        $input:ident: $number:ident, $($rest:tt)*) => {
        entry! { $doc $name $symbol
            [$($there)* _: $number,]
            [$($here)* $input: $number,]
            [$($passed)* $input,]
            $($rest)* }
    };
    ([$($doc:tt)*] $name:ident $symbol:ident [$($there:tt)*] [$($here:tt)*] [$($passed:tt)*]) => {
        $($doc)*
        #[allow(clippy::too_many_arguments)]
        pub fn $name($($here)*) -> crate::raw::Answer {
            extern "C" {
                fn $symbol($($there)*) -> u64;
            }
            crate::raw::Answer::from_word(unsafe { $symbol($($passed)*) })
        }
    };
}

pub mod aggregators;
pub mod checks;
pub mod committee;
pub mod proposer;
pub mod strings;
pub mod sync;
