//! The library's functions over slices. A slice is memory that its holder may read or write, and that is all the library
//! asks of a caller: so these are safe for any contents and any numbers. The one place with `unsafe`.

mod c {
    extern "C" {
        pub fn nuka_setup(
            rec: *mut u64,
            rec_words: usize,
            arena: *mut u64,
            words: usize,
            out: *mut u64,
            out_words: usize,
        ) -> u64;
        pub fn nuka_rebuild(
            rec: *mut u64,
            rec_words: usize,
            arena: *mut u64,
            words: usize,
            out: *mut u64,
            out_words: usize,
            start: u64,
        ) -> u64;
        pub fn nuka_malloc(
            rec: *mut u64,
            rec_words: usize,
            arena: *mut u64,
            words: usize,
            out: *mut u64,
            out_words: usize,
            bytes: u64,
        ) -> u64;
        pub fn nuka_free(
            rec: *mut u64,
            rec_words: usize,
            arena: *mut u64,
            words: usize,
            out: *mut u64,
            out_words: usize,
            offset: u64,
        ) -> u64;
        pub fn nuka_realloc(
            rec: *mut u64,
            rec_words: usize,
            arena: *mut u64,
            words: usize,
            out: *mut u64,
            out_words: usize,
            offset: u64,
            bytes: u64,
        ) -> u64;
        pub fn nuka_memalign(
            rec: *mut u64,
            rec_words: usize,
            arena: *mut u64,
            words: usize,
            out: *mut u64,
            out_words: usize,
            alignment: u64,
            bytes: u64,
        ) -> u64;
        pub fn nuka_usable(
            rec: *const u64,
            rec_words: usize,
            arena: *const u64,
            words: usize,
            out: *mut u64,
            out_words: usize,
            offset: u64,
        ) -> u64;
        pub fn nuka_batch(
            rec: *mut u64,
            rec_words: usize,
            arena: *mut u64,
            words: usize,
            out: *mut u64,
            out_words: usize,
            calls: *const u64,
            call_words: usize,
            answers: *mut u64,
            answer_words: usize,
        ) -> u64;
        pub fn nuka_sound(
            rec: *const u64,
            rec_words: usize,
            arena: *const u64,
            words: usize,
        ) -> u64;
    }
}

/// Hands the three parts to C, each as a pointer and a length, and then the call's numbers.
macro_rules! call {
    ($f:ident, $rec:ident, $arena:ident, $out:ident $(, $n:ident)*) => {{
        let (r, rn) = ($rec.as_mut_ptr(), $rec.len());
        let (a, an) = ($arena.as_mut_ptr(), $arena.len());
        let (o, on) = ($out.as_mut_ptr(), $out.len());
        unsafe { c::$f(r, rn, a, an, o, on $(, $n)*) }
    }};
}

pub fn setup(rec: &mut [u64], arena: &mut [u64], out: &mut [u64]) -> u64 {
    call!(nuka_setup, rec, arena, out)
}

pub fn rebuild(rec: &mut [u64], arena: &mut [u64], out: &mut [u64], start: u64) -> u64 {
    call!(nuka_rebuild, rec, arena, out, start)
}

pub fn malloc(rec: &mut [u64], arena: &mut [u64], out: &mut [u64], bytes: u64) -> u64 {
    call!(nuka_malloc, rec, arena, out, bytes)
}

pub fn free(rec: &mut [u64], arena: &mut [u64], out: &mut [u64], offset: u64) -> u64 {
    call!(nuka_free, rec, arena, out, offset)
}

pub fn realloc(
    rec: &mut [u64],
    arena: &mut [u64],
    out: &mut [u64],
    offset: u64,
    bytes: u64,
) -> u64 {
    call!(nuka_realloc, rec, arena, out, offset, bytes)
}

pub fn memalign(
    rec: &mut [u64],
    arena: &mut [u64],
    out: &mut [u64],
    alignment: u64,
    bytes: u64,
) -> u64 {
    call!(nuka_memalign, rec, arena, out, alignment, bytes)
}

pub fn usable(rec: &[u64], arena: &[u64], out: &mut [u64], offset: u64) -> u64 {
    let (r, a, o) = (rec.as_ptr(), arena.as_ptr(), out.as_mut_ptr());
    unsafe { c::nuka_usable(r, rec.len(), a, arena.len(), o, out.len(), offset) }
}

pub fn batch(
    rec: &mut [u64],
    arena: &mut [u64],
    out: &mut [u64],
    calls: &[u64],
    answers: &mut [u64],
) -> u64 {
    let (list, count) = (calls.as_ptr(), calls.len());
    let (told, room) = (answers.as_mut_ptr(), answers.len());
    call!(nuka_batch, rec, arena, out, list, count, told, room)
}

pub fn sound(rec: &[u64], arena: &[u64]) -> u64 {
    let (r, a) = (rec.as_ptr(), arena.as_ptr());
    unsafe { c::nuka_sound(r, rec.len(), a, arena.len()) }
}
