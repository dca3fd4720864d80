//! The archive's calls, as include/laksovuth.h has them.

extern "C" {
    pub fn laksovuth_max_encoding_overhead(n: usize, size: *mut usize) -> u8;
    pub fn laksovuth_max_encoding_length(n: usize, size: *mut usize) -> u8;
    pub fn laksovuth_encode(
        src: *const u8,
        src_len: usize,
        dest: *mut u8,
        dest_len: usize,
        size: *mut usize,
    ) -> u8;
    pub fn laksovuth_encode_including_sentinels(
        src: *const u8,
        src_len: usize,
        dest: *mut u8,
        dest_len: usize,
        size: *mut usize,
    ) -> u8;
    pub fn laksovuth_encode_with_sentinel(
        src: *const u8,
        src_len: usize,
        dest: *mut u8,
        dest_len: usize,
        sentinel: u8,
        size: *mut usize,
    ) -> u8;
    pub fn laksovuth_decode(
        src: *const u8,
        src_len: usize,
        dest: *mut u8,
        dest_len: usize,
        size: *mut usize,
        parsed: *mut usize,
    ) -> u8;
    pub fn laksovuth_decode_in_place(
        buf: *mut u8,
        buf_len: usize,
        size: *mut usize,
        parsed: *mut usize,
    ) -> u8;
    pub fn laksovuth_decode_with_sentinel(
        src: *const u8,
        src_len: usize,
        dest: *mut u8,
        dest_len: usize,
        sentinel: u8,
        size: *mut usize,
    ) -> u8;
    pub fn laksovuth_write_frame(
        message: *const u8,
        message_len: usize,
        dest: *mut u8,
        dest_len: usize,
        size: *mut usize,
        record: *mut usize,
    ) -> u8;
    pub fn laksovuth_state_length() -> usize;
    pub fn laksovuth_open(
        state: *mut u64,
        state_len: usize,
        batch: u16,
        table: *const u8,
        table_len: usize,
    ) -> u8;
    pub fn laksovuth_receive(
        state: *mut u64,
        state_len: usize,
        buffer: *mut u8,
        buffer_len: usize,
        table: *mut u8,
        table_len: usize,
        piece: *const u8,
        piece_len: usize,
        value: *mut usize,
        record: *mut usize,
        consumed: *mut usize,
    ) -> u8;
    pub fn laksovuth_stands(
        state: *const u64,
        state_len: usize,
        table: *const u8,
        table_len: usize,
        missing: *mut usize,
        total: *mut u64,
    ) -> u8;
}
