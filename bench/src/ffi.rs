//! The proved library's C functions as safe calls. Those that return a refusal's number fill `out`, with a
//! refusal's place, line, column, variable and block; the two that print return how many bytes they printed.
#![allow(clippy::too_many_arguments)]

/// The words of `out`.
pub type Out = [u64; 5];

/// Declares functions of the library and a safe call of each under the same name: `const` and `mut` name
/// slices, which C takes as a pointer and a length; `fill` the words of `out`; `value` a number.
/// Each call hands over pointers and lengths of live slices, none of which overlap, and the library
/// writes inside the mutable ones alone. In `null` stands another call of each, which hands over a null pointer
/// and the length 0 for every slice.
macro_rules! library {
    ($(fn $name:ident($(
        $(const $slice:ident: [$element:ty])?
        $(mut $buffer:ident: [$item:ty])?
        $(fill $out:ident)?
        $(value $number:ident: $kind:ty)?
    ),*) -> $result:ty;)*) => {
        mod symbols {
            #[link(name = "capi", kind = "static")]
            extern "C" {
                $(pub fn $name($(
                    $(_: *const $element, _: usize,)?
                    $(_: *mut $item, _: usize,)?
                    $($out: *mut u64,)?
                    $(_: $kind,)?
                )*) -> $result;)*
            }
        }
        $(pub fn $name($(
            $($slice: &[$element],)?
            $($buffer: &mut [$item],)?
            $($out: &mut Out,)?
            $($number: $kind,)?
        )*) -> $result {
            unsafe {
                symbols::$name($(
                    $($slice.as_ptr(), $slice.len(),)?
                    $($buffer.as_mut_ptr(), $buffer.len(),)?
                    $($out.as_mut_ptr(),)?
                    $($number,)?
                )*)
            }
        })*
        pub mod null {
            use super::{symbols, Out};
            use std::ptr;

            $(pub fn $name($(
                $($out: &mut Out,)?
                $($number: $kind,)?
            )*) -> $result {
                unsafe {
                    symbols::$name($(
                        $(ptr::null::<$element>(), 0,)?
                        $(ptr::null_mut::<$item>(), 0,)?
                        $($out.as_mut_ptr(),)?
                        $($number,)?
                    )*)
                }
            })*
        }
    };
}

library! {
    fn qdr_check_tables(const prefix: [i32], const clauses: [i32], fill out) -> u32;
    fn qdr_read(const text: [u8], mut prefix: [i32], mut clauses: [i32], fill out) -> u32;
    fn qdr_write(const prefix: [i32], const clauses: [i32], mut text: [u8], fill out) -> u32;
    fn qdr_row(
        const prefix: [i32], const clauses: [i32], value variable: i32,
        mut row: [u8], mut scratch: [u8], fill out
    ) -> u32;
    fn qdr_row_small(
        const prefix: [i32], const clauses: [i32], value variable: i32,
        mut row: [u8], mut scratch: [u8], fill out
    ) -> u32;
    fn qdr_read_proof(const file: [u8], value clause_count: u32, mut steps: [i32], fill out) -> u32;
    fn qdr_check(
        const prefix: [i32], const clauses: [i32], const steps: [i32],
        mut scratch: [u8], mut starts: [u32], fill out
    ) -> u32;
    fn qdr_check_small(
        const prefix: [i32], const clauses: [i32], const steps: [i32],
        mut scratch: [u8], mut starts: [u32], fill out
    ) -> u32;
    fn qdr_evaluate(const prefix: [i32], const clauses: [i32], fill out) -> u32;
    fn qdr_check_line(
        const formula: [u8], const proof: [u8], value file_bound: usize,
        mut prefix: [i32], mut clauses: [i32], mut steps: [i32],
        mut scratch: [u8], mut starts: [u32], mut line: [u8]
    ) -> usize;
    fn qdr_dependency_lines(
        const formula: [u8], value file_bound: usize,
        mut prefix: [i32], mut clauses: [i32], mut scratch: [u8], mut text: [u8]
    ) -> usize;
}
