//! The proved library, called through its C interface.

use crate::call::{Call, Entry, Lent};
use crate::interface::interface;

/// Declares one function: its parameters one by one, then the room for its answer.
macro_rules! declare {
    ($name:ident [$($told:tt)*]) => {
        fn $name($($told)* out: *mut i64, out_len: usize);
    };
    ($name:ident [$($told:tt)*] $buffer:ident: &[$type:ty] $(, $($rest:tt)*)?) => {
        declare! { $name [$($told)* $buffer: *const $type, len: usize,] $($($rest)*)? }
    };
    ($name:ident [$($told:tt)*] $buffer:ident: &mut [$type:ty] $(, $($rest:tt)*)?) => {
        declare! { $name [$($told)* $buffer: *mut $type, len: usize,] $($($rest)*)? }
    };
    ($name:ident [$($told:tt)*] $lens:ident: Plate $(, $($rest:tt)*)?) => {
        declare! { $name [$($told)* kind: u32, first: f64, second: f64,] $($($rest)*)? }
    };
    ($name:ident [$($told:tt)*] $number:ident: $type:ty $(, $($rest:tt)*)?) => {
        declare! { $name [$($told)* $number: $type,] $($($rest)*)? }
    };
}

/// Calls one function with its part of a call and of what is lent. Floats are lent by their bits, which have the same
/// size and place in memory.
macro_rules! pass {
    ($name:ident $from:tt [$($told:tt)*] $buffer:ident: &$(mut)? [$type:ty] $(, $($rest:tt)*)?) => {
        pass! { @buffer $name $from $from [$($told)*] $buffer $($($rest)*)? }
    };
    ($name:ident ($call:ident $lent:ident $out:ident) [$($told:tt)*]) => {
        $name($($told)* $out.as_mut_ptr(), $out.len())
    };
    (@buffer $name:ident $from:tt ($call:ident $lent:ident $out:ident) [$($told:tt)*] $buffer:ident $($rest:tt)*) => {
        pass! { $name $from [$($told)* $lent.$buffer.as_mut_ptr().cast(), $lent.$buffer.len(),] $($rest)* }
    };
    ($name:ident ($call:ident $lent:ident $out:ident) [$($told:tt)*] $lens:ident: Plate $(, $($rest:tt)*)?) => {
        pass! { $name ($call $lent $out) [
            $($told)* $call.$lens.kind, f64::from_bits($call.$lens.first), f64::from_bits($call.$lens.second),
        ] $($($rest)*)? }
    };
    ($name:ident ($call:ident $lent:ident $out:ident) [$($told:tt)*] $number:ident: $type:ty $(, $($rest:tt)*)?) => {
        pass! { $name ($call $lent $out) [$($told)* $call.$number as $type,] $($($rest)*)? }
    };
}

macro_rules! call_through {
    ($($entry:ident $name:ident($($handed:tt)*) => $answer:expr;)*) => {
        extern "C" {
            $(declare! { $name [] $($handed)* })*
        }

        /// Makes the call with the buffers lent and this room for the numbers. All buffers are lent as memory that
        /// may change, so that a call that wrote where it must not would be seen.
        pub fn run(call: &Call, lent: &mut Lent, out: &mut [i64]) {
            // Safe as long as the library keeps to the lengths: every pointer is to a live buffer of that length.
            unsafe {
                match call.entry {
                    $(Entry::$entry => pass! { $name (call lent out) [] $($handed)* },)*
                }
            }
        }
    };
}
interface!(call_through);
