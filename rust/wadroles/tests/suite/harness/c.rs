//! What a C function is handed, and what it leaves in the words of output.

use super::{Answer, Case, Operation};
use std::ptr::{null, null_mut};

/// The words of output before a call.
pub const UNTOUCHED: [u64; 4] = [1 << 60, 2 << 60, 3 << 60, 4 << 60];

/// The words of output after a call that wrote these into the first.
pub fn written(words: &[u64]) -> [u64; 4] {
    let mut out = UNTOUCHED;
    out[..words.len()].copy_from_slice(words);
    out
}

/// A pointer to the elements, or null if there are none.
pub fn pointer<T>(table: &[T]) -> *const T {
    if table.is_empty() {
        null()
    } else {
        table.as_ptr()
    }
}

/// A pointer to the elements, or null if there are none.
pub fn pointer_mut<T>(table: &mut [T]) -> *mut T {
    if table.is_empty() {
        null_mut()
    } else {
        table.as_mut_ptr()
    }
}

/// Calls a C function with tables to read, tables lent to be written, numbers, and words of output. A
/// table goes as its pointer and its length, one of a known length as its pointer alone.
macro_rules! call_c {
    ($function:ident($($arguments:tt)*), $out:expr) => {
        $crate::harness::call_c!(@ $function [$out] [] $($arguments)*)
    };
    (@ $function:ident $out:tt [$($done:expr,)*] read $table:expr, $($rest:tt)*) => {
        $crate::harness::call_c!(@ $function $out [
            $($done,)* $crate::harness::pointer(&$table), $table.len(),
        ] $($rest)*)
    };
    (@ $function:ident $out:tt [$($done:expr,)*] lend $table:expr, $($rest:tt)*) => {
        $crate::harness::call_c!(@ $function $out [
            $($done,)* $crate::harness::pointer_mut($table.table()), $table.length(),
        ] $($rest)*)
    };
    (@ $function:ident $out:tt [$($done:expr,)*] known $table:expr, $($rest:tt)*) => {
        $crate::harness::call_c!(@ $function $out [
            $($done,)* $crate::harness::pointer_mut($table.table()),
        ] $($rest)*)
    };
    (@ $function:ident $out:tt [$($done:expr,)*] number $number:expr, $($rest:tt)*) => {
        $crate::harness::call_c!(@ $function $out [$($done,)* $number,] $($rest)*)
    };
    (@ $function:ident [$out:expr] [$($done:expr,)*]) => {
        // SAFETY: pointers and lengths are those of tables, of which none overlaps another, and `out`
        // has 4 entries.
        unsafe { $function($($done,)* $out.as_mut_ptr()) }
    };
}

pub(crate) use call_c;

/// What a C function owes for an answer: the number that it returns, and the words of output.
pub fn owed<O: Operation>(input: &O::Input, answer: Answer<O::Values>) -> (u32, [u64; 4]) {
    match answer {
        Ok(values) => (0, written(&O::words(input, values))),
        Err((number, place)) => (number, written(&[place])),
    }
}

impl<O: Operation> Case<O> {
    /// What the C function returns and leaves in the words of output. What it leaves in the tables
    /// is left here.
    pub fn call_c(&mut self) -> (u32, [u64; 4]) {
        let mut out = UNTOUCHED;
        let number = O::call_c(&self.input, &mut self.tables, &mut out);
        (number, out)
    }
}
