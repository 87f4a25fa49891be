//! The exported functions of the archives themselves, as they are measured: a call is inlined here, and nothing is
//! done but to pass a slice as a pointer and a length. Also what is measured beside the library (`crates/bench_block`,
//! `crates/bench_plain`).

/// The archives' functions, as `frame_coder.h`, `block.h` and `plain.h` have them.
mod archive {
    extern "C" {
        pub fn coder_send(
            k: u8,
            b: u8,
            number: u32,
            free: u8,
            message: *const u8,
            bytes: usize,
            frame: *mut i32,
            length: usize,
        ) -> i64;
        pub fn coder_read_open(
            k: u8,
            b: u8,
            free: u8,
            frame: *const i32,
            length: usize,
            message: *mut u8,
            bytes: usize,
        ) -> i64;
        pub fn coder_read_strict(
            k: u8,
            b: u8,
            number: u32,
            free: u8,
            frame: *const i32,
            length: usize,
            message: *mut u8,
            bytes: usize,
        ) -> i64;
        pub fn coder_read_near(
            k: u8,
            b: u8,
            samples: *const f32,
            length: usize,
            message: *mut u8,
            bytes: usize,
            distance: *mut f64,
        ) -> i64;
        pub fn coder_closer(
            k: u8,
            b: u8,
            first: *const f32,
            first_length: usize,
            second: *const f32,
            second_length: usize,
        ) -> i64;
        pub fn coder_open(changeover: u32, count: *mut u32, sum: *mut f64, largest: *mut u64, kept: *mut u32) -> i64;
        pub fn coder_send_counted(
            k: u8,
            b: u8,
            free: u8,
            message: *const u8,
            bytes: usize,
            frame: *mut i32,
            length: usize,
            count: *mut u32,
            sum: *mut f64,
            largest: *mut u64,
            changeover: u32,
        ) -> i64;
        pub fn coder_send_queue(
            k: u8,
            b: u8,
            messages: *const u8,
            bytes: usize,
            frames: *mut i32,
            length: usize,
            count: *mut u32,
            sum: *mut f64,
            largest: *mut u64,
            changeover: u32,
            sent: *mut usize,
        ) -> i64;
        pub fn coder_write_record(
            k: u8,
            b: u8,
            number: u32,
            message: *const u8,
            bytes: usize,
            buffer: *mut u8,
            length: usize,
            place: usize,
            next: *mut usize,
        ) -> i64;
        pub fn coder_read_record(
            buffer: *const u8,
            length: usize,
            place: usize,
            frame: *mut i32,
            coordinates: usize,
            k: *mut u8,
            b: *mut u8,
            number: *mut u32,
            next: *mut usize,
        ) -> i64;
        pub fn plain_send(
            k: u8,
            b: u8,
            number: u32,
            message: *const u8,
            bytes: usize,
            frame: *mut i32,
            length: usize,
        ) -> i64;
        pub fn block_least(k: u32, block: *const i32, block_len: usize, least: *mut i32, least_len: usize) -> bool;
    }
}

/// Sends under a number, the last bits of the message left free: the energy, or minus the number of a refusal.
#[inline(always)]
pub fn send(kind: u8, grade: u8, number: u32, free: u8, message: &[u8], frame: &mut [i32]) -> i64 {
    let (message, bytes, frame, length) = (message.as_ptr(), message.len(), frame.as_mut_ptr(), frame.len());
    // SAFETY: both slices are lent for the call, the frame alone; the lengths are theirs.
    unsafe { archive::coder_send(kind, grade, number, free, message, bytes, frame, length) }
}

/// The same without free bits, by the mask test at every position.
#[inline(always)]
pub fn plain_send(kind: u8, grade: u8, number: u32, message: &[u8], frame: &mut [i32]) -> i64 {
    let (message, bytes, frame, length) = (message.as_ptr(), message.len(), frame.as_mut_ptr(), frame.len());
    // SAFETY: as in `send`.
    unsafe { archive::plain_send(kind, grade, number, message, bytes, frame, length) }
}

/// The count, the sum and the largest block of an account, and its changeover.
pub type Figures = (u32, f64, u64, u32);

/// Opens an account over these figures: 0, or minus the number of the refusal.
#[inline(always)]
pub fn open(changeover: u32, (count, sum, largest, kept): &mut Figures) -> i64 {
    // SAFETY: the four numbers are lent for the call, each alone.
    unsafe { archive::coder_open(changeover, count, sum, largest, kept) }
}

/// Sends with an account.
#[inline(always)]
pub fn send_counted(
    kind: u8,
    grade: u8,
    free: u8,
    message: &[u8],
    frame: &mut [i32],
    (count, sum, largest, changeover): &mut Figures,
) -> i64 {
    let (message, bytes, frame, length) = (message.as_ptr(), message.len(), frame.as_mut_ptr(), frame.len());
    // SAFETY: as in `send`; the three numbers are lent for the call alone.
    unsafe {
        archive::coder_send_counted(kind, grade, free, message, bytes, frame, length, count, sum, largest, *changeover)
    }
}

/// Sends a queue with the same: 0, or minus the number of a refusal; `sent` is how many are sent.
#[inline(always)]
pub fn send_queue(
    kind: u8,
    grade: u8,
    messages: &[u8],
    frames: &mut [i32],
    (count, sum, largest, changeover): &mut Figures,
    sent: &mut usize,
) -> i64 {
    let (messages, bytes, frames, length) = (messages.as_ptr(), messages.len(), frames.as_mut_ptr(), frames.len());
    // SAFETY: as in `send_counted`; `sent` too is lent for the call alone.
    unsafe {
        archive::coder_send_queue(kind, grade, messages, bytes, frames, length, count, sum, largest, *changeover, sent)
    }
}

/// Reads openly: the energy, or minus the number of a refusal.
#[inline(always)]
pub fn read_open(kind: u8, grade: u8, free: u8, frame: &[i32], message: &mut [u8]) -> i64 {
    let (frame, length, message, bytes) = (frame.as_ptr(), frame.len(), message.as_mut_ptr(), message.len());
    // SAFETY: both slices are lent for the call, the message alone; the lengths are theirs.
    unsafe { archive::coder_read_open(kind, grade, free, frame, length, message, bytes) }
}

/// Reads strictly under a number.
#[inline(always)]
pub fn read_strict(kind: u8, grade: u8, number: u32, free: u8, frame: &[i32], message: &mut [u8]) -> i64 {
    let (frame, length, message, bytes) = (frame.as_ptr(), frame.len(), message.as_mut_ptr(), message.len());
    // SAFETY: as in `read_open`.
    unsafe { archive::coder_read_strict(kind, grade, number, free, frame, length, message, bytes) }
}

/// Reads samples: 0, or minus the number; the squared distance goes to `distance`.
#[inline(always)]
pub fn read_near(kind: u8, grade: u8, samples: &[f32], message: &mut [u8], distance: &mut f64) -> i64 {
    let (samples, length, message, bytes) = (samples.as_ptr(), samples.len(), message.as_mut_ptr(), message.len());
    // SAFETY: as in `read_open`; the distance is lent for the call alone.
    unsafe { archive::coder_read_near(kind, grade, samples, length, message, bytes, distance) }
}

/// Chooses between two recordings: 1 or 2, or minus the number.
#[inline(always)]
pub fn closer(kind: u8, grade: u8, first: &[f32], second: &[f32]) -> i64 {
    // SAFETY: both slices are lent for the call, to be read; the lengths are theirs.
    unsafe { archive::coder_closer(kind, grade, first.as_ptr(), first.len(), second.as_ptr(), second.len()) }
}

/// Writes a record at a place of the buffer: 0, or minus the number; the place after it goes to `next`.
#[inline(always)]
pub fn write_record(
    kind: u8,
    grade: u8,
    number: u32,
    message: &[u8],
    buffer: &mut [u8],
    place: usize,
    next: &mut usize,
) -> i64 {
    let (message, bytes, buffer, length) = (message.as_ptr(), message.len(), buffer.as_mut_ptr(), buffer.len());
    // SAFETY: both slices and `next` are lent for the call, the buffer and `next` each alone; the lengths are the slices'.
    unsafe { archive::coder_write_record(kind, grade, number, message, bytes, buffer, length, place, next) }
}

/// The kind, the grade and the number of a record, and the place after it.
pub type Head = (u8, u8, u32, usize);

/// Reads the record at a place of the buffer: the energy, or minus the number; the rest goes to the head.
#[inline(always)]
pub fn read_record(buffer: &[u8], place: usize, frame: &mut [i32], (k, b, number, next): &mut Head) -> i64 {
    let (buffer, length, frame, coordinates) = (buffer.as_ptr(), buffer.len(), frame.as_mut_ptr(), frame.len());
    // SAFETY: both slices and the head are lent for the call, the frame and each part of the head alone; the lengths are the slices'.
    unsafe { archive::coder_read_record(buffer, length, place, frame, coordinates, k, b, number, next) }
}

/// Fills the least member of the block's class at scale 2^(k + 1) and gives true; or gives false
/// and fills nothing, where k is over 6, a length is not 8, or a coordinate is over 2^24 in size.
#[inline(always)]
pub fn least(k: u32, block: &[i32], least: &mut [i32]) -> bool {
    // SAFETY: both slices are lent for the call, the least member alone; the lengths are theirs.
    unsafe { archive::block_least(k, block.as_ptr(), block.len(), least.as_mut_ptr(), least.len()) }
}
