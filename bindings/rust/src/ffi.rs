//! The functions of include/lg.h, as C declares them. Nothing else of this crate names them.

extern "C" {
    pub fn lg_start(pool: *mut u16, pool_words: usize) -> u64;

    pub fn lg_grant(
        pool: *mut u16,
        pool_words: usize,
        number: u16,
        rank: u8,
        kind: u8,
        staff_from: u16,
        staff_to: u16,
        door_from: u16,
        door_to: u16,
        quarter_from: u16,
        quarter_to: u16,
    ) -> u64;

    pub fn lg_revoke(pool: *mut u16, pool_words: usize, number: u16) -> u64;

    pub fn lg_list(
        pool: *const u16,
        pool_words: usize,
        staff_from: u16,
        staff_to: u16,
        door_from: u16,
        door_to: u16,
        quarter_from: u16,
        quarter_to: u16,
        list: *mut u16,
        list_words: usize,
    ) -> u64;

    pub fn lg_list_holding(
        pool: *const u16,
        pool_words: usize,
        staff_from: u16,
        staff_to: u16,
        door_from: u16,
        door_to: u16,
        quarter_from: u16,
        quarter_to: u16,
        list: *mut u16,
        list_words: usize,
    ) -> u64;

    pub fn lg_decide(pool: *const u16, pool_words: usize, staff: u16, door: u16, quarter: u16, out: *mut u16) -> u64;

    pub fn lg_count(pool: *const u16, pool_words: usize) -> u64;

    pub fn lg_write(pool: *const u16, pool_words: usize, door_from: u16, door_to: u16, bytes: *mut u8, bytes_len: usize) -> u64;

    pub fn lg_load(pool: *mut u16, pool_words: usize, file: *const u8, file_bytes: usize) -> u64;

    pub fn lg_match(pool: *const u16, pool_words: usize, file: *const u8, file_bytes: usize) -> u64;

    pub fn lg_block(file: *const u8, file_bytes: usize, block: u64) -> u64;

    pub fn lg_block_part(file: *const u8, file_bytes: usize, block: u64) -> u64;

    pub fn lg_compare_openings(door_record: *const u8, door_bytes: usize, panel_record: *const u8, panel_bytes: usize) -> u64;
}
