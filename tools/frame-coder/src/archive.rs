//! The archive's functions, as `crates/frame_coder/frame_coder.h` has them: a slice is a pointer and
//! a length; the answer is the energy, of a queue, of an opening, of a near reading and of the writing of a record 0, of a choice of
//! recordings 1 or 2, or minus the number of the refusal; of `coder_record_length` it is a number of bytes.

extern "C" {
    pub fn coder_send(
        kind: u8,
        grade: u8,
        number: u32,
        free: u8,
        message: *const u8,
        message_len: usize,
        frame: *mut i32,
        frame_len: usize,
    ) -> i64;
    pub fn coder_read_open(
        kind: u8,
        grade: u8,
        free: u8,
        frame: *const i32,
        frame_len: usize,
        message: *mut u8,
        message_len: usize,
    ) -> i64;
    pub fn coder_read_strict(
        kind: u8,
        grade: u8,
        number: u32,
        free: u8,
        frame: *const i32,
        frame_len: usize,
        message: *mut u8,
        message_len: usize,
    ) -> i64;
    pub fn coder_read_near(
        kind: u8,
        grade: u8,
        samples: *const f32,
        samples_len: usize,
        message: *mut u8,
        message_len: usize,
        distance: *mut f64,
    ) -> i64;
    pub fn coder_closer(
        kind: u8,
        grade: u8,
        first: *const f32,
        first_len: usize,
        second: *const f32,
        second_len: usize,
    ) -> i64;
    pub fn coder_open(changeover: u32, count: *mut u32, sum: *mut f64, largest: *mut u64, kept: *mut u32) -> i64;
    pub fn coder_send_counted(
        kind: u8,
        grade: u8,
        free: u8,
        message: *const u8,
        message_len: usize,
        frame: *mut i32,
        frame_len: usize,
        count: *mut u32,
        sum: *mut f64,
        largest: *mut u64,
        changeover: u32,
    ) -> i64;
    pub fn coder_send_queue(
        kind: u8,
        grade: u8,
        messages: *const u8,
        messages_len: usize,
        frames: *mut i32,
        frames_len: usize,
        count: *mut u32,
        sum: *mut f64,
        largest: *mut u64,
        changeover: u32,
        sent: *mut usize,
    ) -> i64;
    pub fn coder_write_record(
        kind: u8,
        grade: u8,
        number: u32,
        message: *const u8,
        message_len: usize,
        buffer: *mut u8,
        buffer_len: usize,
        place: usize,
        next: *mut usize,
    ) -> i64;
    pub fn coder_read_record(
        buffer: *const u8,
        buffer_len: usize,
        place: usize,
        frame: *mut i32,
        frame_len: usize,
        kind: *mut u8,
        grade: *mut u8,
        number: *mut u32,
        next: *mut usize,
    ) -> i64;
    pub fn coder_record_length(kind: u8) -> usize;
}
