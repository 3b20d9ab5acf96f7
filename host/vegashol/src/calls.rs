//! The calls that the proved library exports, as they are. The functions of this crate wrap each of them; these are for a host
//! that wants the lent memory itself after a call.
//!
//! A slice is a pointer and a length. The library asks of its slices only that they are slices: each pointer is valid for its
//! length, and what is written overlaps with nothing else that is lent. No proof covers these declarations; a test holds them, and
//! those of `vegashol.h`, against the library's source.
//!
//! Each answers one number: a refusal's number times 2³², plus the output's length or the refusal's place.

extern "C" {
    pub fn vegashol_shorten(
        card: *const u8,
        card_length: usize,
        root: *const u8,
        root_length: usize,
        out: *mut u8,
        out_length: usize,
    ) -> u64;
    pub fn vegashol_shorten_work(
        card: *const u8,
        card_length: usize,
        root: *const u8,
        root_length: usize,
        out: *mut u8,
        out_length: usize,
        work: *mut u32,
        work_length: usize,
    ) -> u64;
    pub fn vegashol_shorten_places(
        card: *const u8,
        card_length: usize,
        root: *const u8,
        root_length: usize,
        out: *mut u8,
        out_length: usize,
        list: *mut u32,
        list_length: usize,
        entries: *mut u32,
    ) -> u64;
    pub fn vegashol_shorten_places_work(
        card: *const u8,
        card_length: usize,
        root: *const u8,
        root_length: usize,
        out: *mut u8,
        out_length: usize,
        work: *mut u32,
        work_length: usize,
        list: *mut u32,
        list_length: usize,
        entries: *mut u32,
    ) -> u64;
    pub fn vegashol_straight(
        card: *const u8,
        card_length: usize,
        root: *const u8,
        root_length: usize,
        out: *mut u8,
        out_length: usize,
    ) -> u64;
    pub fn vegashol_straight_work(
        card: *const u8,
        card_length: usize,
        root: *const u8,
        root_length: usize,
        out: *mut u8,
        out_length: usize,
        work: *mut u32,
        work_length: usize,
    ) -> u64;
    pub fn vegashol_straight_places(
        card: *const u8,
        card_length: usize,
        root: *const u8,
        root_length: usize,
        out: *mut u8,
        out_length: usize,
        list: *mut u32,
        list_length: usize,
        entries: *mut u32,
    ) -> u64;
    pub fn vegashol_straight_places_work(
        card: *const u8,
        card_length: usize,
        root: *const u8,
        root_length: usize,
        out: *mut u8,
        out_length: usize,
        work: *mut u32,
        work_length: usize,
        list: *mut u32,
        list_length: usize,
        entries: *mut u32,
    ) -> u64;
}
