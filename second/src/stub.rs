//! Stands in for the proved library's archive: its C functions, built on plain Rust. It lets `compare` and `bench` be
//! tried without the archive.

use crate::answer::{counted, counted_mut, numbers, room_for, Answer, Refusal};
use crate::interface::interface;
use crate::plain::{self, Index, Plate, Settings};
use std::slice;

/// A lent buffer; NULL with length 0 is an empty one.
unsafe fn from_raw_parts<'a, T>(pointer: *const T, len: usize) -> &'a [T] {
    match len {
        0 => &[],
        _ => slice::from_raw_parts(pointer, len),
    }
}

unsafe fn from_raw_parts_mut<'a, T>(pointer: *mut T, len: usize) -> &'a mut [T] {
    match len {
        0 => &mut [],
        _ => slice::from_raw_parts_mut(pointer, len),
    }
}

/// Makes the call, and writes the 64 numbers of its answer where there is room for them.
unsafe fn answer<T: Answer>(out: *mut i64, out_len: usize, call: impl FnOnce() -> Result<T, Refusal>) {
    let numbers = numbers(&call());
    if out_len >= 64 {
        from_raw_parts_mut(out, 64).copy_from_slice(&numbers);
    }
}

/// Defines one function: its parameters one by one, what is made of them, and its answer.
macro_rules! define {
    ($name:ident $answer:tt [$($told:tt)*] [$($made:tt)*]) => {
        #[no_mangle]
        unsafe extern "C" fn $name($($told)* out: *mut i64, out_len: usize) {
            $($made)*
            answer(out, out_len, || $answer);
        }
    };
    ($name:ident $answer:tt [$($told:tt)*] [$($made:tt)*] $buffer:ident: &[$type:ty] $(, $($rest:tt)*)?) => {
        define! { $name $answer
            [$($told)* $buffer: *const $type, len: usize,]
            [$($made)* let $buffer = from_raw_parts($buffer, len);]
            $($($rest)*)?
        }
    };
    ($name:ident $answer:tt [$($told:tt)*] [$($made:tt)*] $buffer:ident: &mut [$type:ty] $(, $($rest:tt)*)?) => {
        define! { $name $answer
            [$($told)* $buffer: *mut $type, len: usize,]
            [$($made)* let $buffer = from_raw_parts_mut($buffer, len);]
            $($($rest)*)?
        }
    };
    ($name:ident $answer:tt [$($told:tt)*] [$($made:tt)*] $lens:ident: Plate $(, $($rest:tt)*)?) => {
        define! { $name $answer
            [$($told)* kind: u32, first: f64, second: f64,]
            [$($made)* let $lens = Plate { kind, first, second };]
            $($($rest)*)?
        }
    };
    ($name:ident $answer:tt [$($told:tt)*] [$($made:tt)*] $number:ident: $type:ty $(, $($rest:tt)*)?) => {
        define! { $name $answer [$($told)* $number: $type,] [$($made)*] $($($rest)*)? }
    };
}

macro_rules! stand_in {
    ($($entry:ident $name:ident($($handed:tt)*) => $answer:expr;)*) => {
        $(define! { $name { $answer } [] [] $($handed)* })*
    };
}
interface!(stand_in);
