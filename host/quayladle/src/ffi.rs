//! The one place that calls the proved library: each of its functions, with slices and an array of
//! four numbers for the reply.
//!
//! A slice of Rattle is a pointer and a length, an array a pointer. The functions have no condition
//! on what they are given, keep nothing, and write only what the caller lends.

use crate::reply::Numbers;

mod library {
    use super::Numbers;

    extern "C" {
        pub fn quayladle_check(file: *const u8, file_len: usize, reply: *mut Numbers);
        pub fn quayladle_read(
            file: *const u8,
            file_len: usize,
            rows: *mut i64,
            rows_len: usize,
            reply: *mut Numbers,
        );
        pub fn quayladle_write(
            rows: *const i64,
            rows_len: usize,
            text: *const u8,
            text_len: usize,
            out: *mut u8,
            out_len: usize,
            reply: *mut Numbers,
        );
        pub fn quayladle_same(
            first: *const u8,
            first_len: usize,
            second: *const u8,
            second_len: usize,
            reply: *mut Numbers,
        );
        pub fn quayladle_judge(
            board: *const u8,
            board_len: usize,
            library: *const u8,
            library_len: usize,
            reply: *mut Numbers,
        );
        pub fn quayladle_fields(
            file: *const u8,
            file_len: usize,
            at: usize,
            line: u64,
            out: *mut i64,
            out_len: usize,
            place: *mut [u64; 2],
            reply: *mut Numbers,
        );
    }
}

pub fn check(file: &[u8]) -> Numbers {
    let mut reply = Numbers::default();
    // SAFETY: pointer and length are those of one slice, and the reply outlives the call.
    unsafe { library::quayladle_check(file.as_ptr(), file.len(), &mut reply) };
    reply
}

pub fn read(file: &[u8], rows: &mut [i64]) -> Numbers {
    let mut reply = Numbers::default();
    // SAFETY: as above; `rows` is borrowed by this call alone.
    unsafe {
        library::quayladle_read(
            file.as_ptr(),
            file.len(),
            rows.as_mut_ptr(),
            rows.len(),
            &mut reply,
        );
    }
    reply
}

pub fn write(rows: &[i64], text: &[u8], out: &mut [u8]) -> Numbers {
    let mut reply = Numbers::default();
    // SAFETY: as above; `out` is borrowed by this call alone.
    unsafe {
        library::quayladle_write(
            rows.as_ptr(),
            rows.len(),
            text.as_ptr(),
            text.len(),
            out.as_mut_ptr(),
            out.len(),
            &mut reply,
        );
    }
    reply
}

pub fn same(first: &[u8], second: &[u8]) -> Numbers {
    let mut reply = Numbers::default();
    // SAFETY: as above; both slices are only read, so they may overlap.
    unsafe {
        library::quayladle_same(
            first.as_ptr(),
            first.len(),
            second.as_ptr(),
            second.len(),
            &mut reply,
        );
    }
    reply
}

pub fn judge(board: &[u8], library: &[u8]) -> Numbers {
    let mut reply = Numbers::default();
    // SAFETY: as above; both slices are only read, so they may overlap.
    unsafe {
        library::quayladle_judge(
            board.as_ptr(),
            board.len(),
            library.as_ptr(),
            library.len(),
            &mut reply,
        );
    }
    reply
}

pub fn fields(file: &[u8], at: usize, line: u64, out: &mut [i64]) -> (Numbers, [u64; 2]) {
    let mut reply = Numbers::default();
    let mut place = [0; 2];
    // SAFETY: as above; `out` is borrowed by this call alone, and the place outlives the call.
    unsafe {
        library::quayladle_fields(
            file.as_ptr(),
            file.len(),
            at,
            line,
            out.as_mut_ptr(),
            out.len(),
            &mut place,
            &mut reply,
        );
    }
    (reply, place)
}
