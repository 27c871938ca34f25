//! The library for C of `crates/bitvec_c/include/bitvec.h`, for any target, as rustc makes it of
//! the proved sources: `libbitvec_c.a` and its shared form. `README.md` says how to build it.
//!
//! `build.rs` takes the contracts out of the sources, by `../strip`, and writes behind each export
//! the function that C calls: it has of a slice the pointer and the number of its items, makes the
//! slice of them, and calls the export. What else is not of the sources are the functions below, and
//! `../src/proved/shim`.
//!
//! # What is trusted
//!
//! - rustc, `../strip`, and what `build.rs` writes;
//! - that a caller sees to what the header asks of pointers: they are aligned, what is written
//!   shares nothing with other arguments, and as many items as the number says are there, each with
//!   a value. A variable that an answer is written to needs none: the exports read none of them,
//!   which the sources show and rustc is not told;
//! - that nothing panics: each export is proved to answer for all arguments. Where it did, the
//!   program would end by `abort`, or stand still where there is no system.
#![no_std]
#![deny(missing_docs)]

#[cfg(not(target_pointer_width = "64"))]
compile_error!("the library is proved for a usize of 64 bits");

mod proved;

use core::panic::PanicInfo;

/// The slice of `count` items from `first` on, which is not met where there are none.
///
/// # Safety
///
/// That many can be read there until the slice is gone.
unsafe fn slice<'a, T>(first: *const T, count: usize) -> &'a [T] {
    if count == 0 {
        return &[];
    }
    // SAFETY: the caller's.
    unsafe { core::slice::from_raw_parts(first, count) }
}

/// The same, to be written.
///
/// # Safety
///
/// That many can be read and written there, by nothing but the slice until it is gone.
unsafe fn slice_mut<'a, T>(first: *mut T, count: usize) -> &'a mut [T] {
    if count == 0 {
        return &mut [];
    }
    // SAFETY: the caller's.
    unsafe { core::slice::from_raw_parts_mut(first, count) }
}

/// Ends the program, by the system's `abort` where there is one.
#[panic_handler]
fn ended(_: &PanicInfo<'_>) -> ! {
    #[cfg(not(target_os = "none"))]
    {
        #[cfg_attr(unix, link(name = "c"))]
        unsafe extern "C" {
            safe fn abort() -> !;
        }
        abort()
    }
    #[cfg(target_os = "none")]
    loop {
        core::hint::spin_loop();
    }
}
