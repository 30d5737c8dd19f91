//! The functions of libhauklivo.a as they stand: a slice is lent as a pointer and a length. Each that
//! is lent something returns 0 or a [`Refusal`](crate::Refusal)'s number; the others, which are safe,
//! refuse nothing.
//!
//! A pointer must be one that a slice of the length may have. What a call may write may not share a
//! byte with anything else that is lent to it, or nothing is promised: a section that contains its own
//! entries is written outside its bounds, or the call faults.
//!
//! A `count` and `reaches` are not read, and written only where 0 comes back: each may be
//! uninitialised.

use crate::Tally;

unsafe extern "C" {
    /// See [`version`](crate::version).
    pub safe fn hauklivo_version() -> u32;

    /// The same, by a name that only a library of this version has.
    pub safe fn hauklivo_version_5() -> u32;

    /// See [`read_relocs`](crate::read_relocs). `sections_count` counts addresses, where every other
    /// length counts bytes.
    pub fn hauklivo_read_relocs(
        contents: *const u8,
        contents_len: usize,
        records: *const u8,
        records_len: usize,
        sections: *const u64,
        sections_count: usize,
        slots: *mut u8,
        slots_len: usize,
        count: *mut usize,
    ) -> u8;

    /// See [`read_relocs_x86_64`](crate::read_relocs_x86_64). `sections_count` counts addresses, where
    /// every other length counts bytes.
    pub fn hauklivo_read_relocs_x86_64(
        contents: *const u8,
        contents_len: usize,
        records: *const u8,
        records_len: usize,
        sections: *const u64,
        sections_count: usize,
        address: u64,
        slots: *mut u8,
        slots_len: usize,
        count: *mut usize,
    ) -> u8;

    /// See [`apply_reloc_alloc`](crate::apply_reloc_alloc).
    pub fn hauklivo_apply_reloc_alloc(
        section: *mut u8,
        section_len: usize,
        base: u64,
        tls_begin: u64,
        image_base: u64,
        entries: *const u8,
        entries_len: usize,
        targets: *const u8,
        targets_len: usize,
        slots: *mut u8,
        slots_len: usize,
        count: *mut usize,
    ) -> u8;

    /// See [`write_stub`](crate::write_stub); `reaches` gets 1 or 0.
    pub fn hauklivo_write_stub(bytes: *mut u8, bytes_len: usize, address: u64, pointer: u64, reaches: *mut u8) -> u8;

    /// See [`write_thunk`](crate::write_thunk).
    pub fn hauklivo_write_thunk(bytes: *mut u8, bytes_len: usize, address: u64, target: u64) -> u8;

    /// See [`apply_hints`](crate::apply_hints). The 16 bytes of `tally` are read, and where the call
    /// refuses the same are written back; nothing else depends on them. So it may be uninitialised
    /// when lent, and is then still so after a refusal.
    pub fn hauklivo_apply_hints(
        image: *mut u8,
        image_len: usize,
        hints: *const u8,
        hints_len: usize,
        entries: *const u8,
        entries_len: usize,
        tally: *mut Tally,
    ) -> u8;

    /// See [`apply_hints_listed`](crate::apply_hints_listed). Of `tally` the same holds as above; `records`
    /// is not read, and written only where 0 comes back, as far as one record for each hint goes.
    pub fn hauklivo_apply_hints_listed(
        image: *mut u8,
        image_len: usize,
        hints: *const u8,
        hints_len: usize,
        entries: *const u8,
        entries_len: usize,
        records: *mut u8,
        records_len: usize,
        tally: *mut Tally,
    ) -> u8;

    /// See [`read_hints`](crate::read_hints). `slots_count` counts values, `payload_len` bytes.
    pub fn hauklivo_read_hints(
        payload: *const u8,
        payload_len: usize,
        slots: *mut u64,
        slots_count: usize,
        count: *mut usize,
    ) -> u8;

    /// See [`write_hints`](crate::write_hints). `row_count` counts values, `out_len` bytes.
    pub fn hauklivo_write_hints(
        row: *const u64,
        row_count: usize,
        out: *mut u8,
        out_len: usize,
        count: *mut usize,
    ) -> u8;

    /// See [`list`](crate::list()).
    pub fn hauklivo_list(words: *const u8, words_len: usize, out: *mut u8, out_len: usize, count: *mut usize) -> u8;

    /// See [`load_store_class`](crate::load_store_class), and
    /// [`LoadStoreClass::from_entry`](crate::LoadStoreClass::from_entry) for what the number is made of.
    pub safe fn hauklivo_load_store_class(insn: u32) -> u8;
}
