//! The calls of libhauklivo.a, as safe functions.

use crate::raw::{
    hauklivo_apply_hints, hauklivo_apply_hints_listed, hauklivo_apply_reloc_alloc, hauklivo_list,
    hauklivo_load_store_class, hauklivo_read_hints, hauklivo_read_relocs, hauklivo_read_relocs_x86_64,
    hauklivo_version, hauklivo_write_hints, hauklivo_write_stub, hauklivo_write_thunk,
};
use crate::{LoadStoreClass, Refusal, Tally};

/// `answer` where the number is 0, else the refusal.
fn settled<T>(number: u8, answer: T) -> Result<T, Refusal> {
    match Refusal::of(number) {
        None => Ok(answer),
        Some(refusal) => Err(refusal),
    }
}

/// The version of the library that is linked.
///
/// ```
/// assert_eq!(hauklivo::version(), hauklivo::VERSION);
/// ```
pub fn version() -> u32 {
    hauklivo_version()
}

/// Reads the relocation records of a section of an arm64 object into entries, and says how many it
/// filled; slots after those keep their bytes.
///
/// `records` holds [`MachRel`](crate::MachRel)s, `sections` the address of each section of the
/// object, `slots` at least 24 bytes for each record: there the [`Reloc`](crate::Reloc)s go.
///
/// ```
/// use hauklivo::{MachRel, Record, Refusal, Reloc, read_relocs};
///
/// // ADDEND -1, then the PAGE21 of symbol 5: one entry.
/// let records = [MachRel { offset: 0, bits: 0xa4ffffff }, MachRel { offset: 0, bits: 0x3d000005 }];
/// let mut slots = [Reloc::default(); 2];
/// assert_eq!(read_relocs(&[0; 4], MachRel::bytes(&records), &[], Reloc::bytes_mut(&mut slots)), Ok(1));
/// assert_eq!((slots[0].target, slots[0].addend), (5, -1));
///
/// // An ADDEND record alone.
/// let lone = MachRel::bytes(&records[..1]);
/// assert_eq!(read_relocs(&[0; 4], lone, &[], Reloc::bytes_mut(&mut slots)), Err(Refusal::LoneAddend));
/// ```
///
/// An AUTHENTICATED_POINTER record is supported where it is extern, of 8 bytes and not pc-relative.
/// Of the 8 bytes at its place, as a number, bits 0 to 31 are the addend, signed, in the place of
/// an ADDEND record's; 32 to 47 are the diversity, 48 the address diversity, 49 and 50 the key.
///
/// ```
/// use hauklivo::{MachRel, Record, Refusal, Reloc, read_relocs, ty};
///
/// let records = [MachRel::new(0, 2, false, 3, true, ty::AUTHENTICATED_POINTER)];
/// let mut slots = [Reloc::default(); 1];
/// let mut read = |word: u64| {
///     let done = read_relocs(&word.to_le_bytes(), MachRel::bytes(&records), &[], Reloc::bytes_mut(&mut slots));
///     done.map(|_| (slots[0].addend, slots[0].diversity, slots[0].address_diversity, slots[0].key))
/// };
/// assert_eq!(read(0x8001002a00000000), Ok((0, 42, 1, 0))); // _g@AUTH(ia,42,addr)
/// assert_eq!(read(0x8004fffffffffffd), Ok((-3, 65535, 0, 2))); // (_g - 3)@AUTH(da,65535)
/// assert_eq!(read(0), Err(Refusal::NotAuthenticated));
/// ```
///
/// # Errors
///
/// In this order: [`Lengths`](Refusal::Lengths), [`Slots`](Refusal::Slots), then record by record
/// [`Bounds`](Refusal::Bounds) of its offset, [`LoneAddend`](Refusal::LoneAddend),
/// [`Unsupported`](Refusal::Unsupported), [`Bounds`](Refusal::Bounds) of the word that it must fit,
/// [`Unfit`](Refusal::Unfit), [`Bounds`](Refusal::Bounds) of a stored addend,
/// [`NotAuthenticated`](Refusal::NotAuthenticated), [`NoSection`](Refusal::NoSection).
pub fn read_relocs(contents: &[u8], records: &[u8], sections: &[u64], slots: &mut [u8]) -> Result<usize, Refusal> {
    let mut count = 0;
    // SAFETY: every pointer comes with its slice's own length, and what is written is borrowed
    // mutably here.
    let number = unsafe {
        hauklivo_read_relocs(
            contents.as_ptr(),
            contents.len(),
            records.as_ptr(),
            records.len(),
            sections.as_ptr(),
            sections.len(),
            slots.as_mut_ptr(),
            slots.len(),
            &mut count,
        )
    };
    settled(number, count)
}

/// Reads the relocation records of a section of an x86_64 object into entries, one for each record, and
/// says how many that is; slots after those keep their bytes.
///
/// `records` holds [`MachRel`](crate::MachRel)s of the types [`ty_x86_64`](crate::ty_x86_64), `sections`
/// the address of each section of the object, `address` that of the section that the records are of,
/// `slots` at least 24 bytes for each record: there the [`Reloc`](crate::Reloc)s go.
///
/// Every record's addend is the number in the 1, 4 or 8 bytes at its place, signed, plus 1, 2 or 4 by its
/// type for SIGNED_1, SIGNED_2 and SIGNED_4. A record of a section has that section's address taken off;
/// where it is pc-relative, `address`, its offset and 4 are added. Sums are modulo 2^64.
///
/// An entry does not say which machine it is of: [`apply_reloc_alloc`], [`apply_hints`] and
/// [`apply_hints_listed`] take every entry as arm64's. Lend them none of this call: there is no number for
/// that, they may well accept it, and the bytes that come of it mean nothing.
///
/// ```
/// use hauklivo::{MachRel, Record, Refusal, Reloc, Target, read_relocs_x86_64, ty_x86_64};
///
/// // movb $5, x(%rip) at 0x100, where x is 0x208: 8 bytes into the section at 0x200. The displacement
/// // counts from the end of the instruction, one byte behind the field, as the type says.
/// let contents = [0xc6, 0x05, 0x01, 0x01, 0, 0, 5]; // 0x208 - 0x107
/// let records = [MachRel::new(2, 2, true, 2, false, ty_x86_64::SIGNED_1)];
/// let mut slots = [Reloc::default(); 1];
/// let (list, sections) = (MachRel::bytes(&records), [0x100, 0x200]);
/// let read = read_relocs_x86_64(&contents, list, &sections, 0x100, Reloc::bytes_mut(&mut slots));
/// assert_eq!(read, Ok(1));
/// assert_eq!((slots[0].target(), slots[0].addend), (Target::Section(1), 8));
///
/// // There is no section 2.
/// let read = read_relocs_x86_64(&contents, list, &sections[..1], 0x100, Reloc::bytes_mut(&mut slots));
/// assert_eq!(read, Err(Refusal::NoSection));
/// ```
///
/// # Errors
///
/// In this order: [`Lengths`](Refusal::Lengths), [`Slots`](Refusal::Slots), then record by record
/// [`Unsupported`](Refusal::Unsupported), [`Bounds`](Refusal::Bounds), [`NoSection`](Refusal::NoSection).
pub fn read_relocs_x86_64(
    contents: &[u8],
    records: &[u8],
    sections: &[u64],
    address: u64,
    slots: &mut [u8],
) -> Result<usize, Refusal> {
    let mut count = 0;
    // SAFETY: as in read_relocs.
    let number = unsafe {
        hauklivo_read_relocs_x86_64(
            contents.as_ptr(),
            contents.len(),
            records.as_ptr(),
            records.len(),
            sections.as_ptr(),
            sections.len(),
            address,
            slots.as_mut_ptr(),
            slots.len(),
            &mut count,
        )
    };
    settled(number, count)
}

/// Fixes up a section's bytes by its entries and their resolved targets, and says how many reports
/// it filled; slots after those keep their bytes.
///
/// `base` is the address of the section's first byte, `tls_begin` the start of thread-local
/// storage, `image_base` the address of the image, that of its mach header, on which only
/// AUTHENTICATED_POINTER entries depend. `entries` holds [`Reloc`](crate::Reloc)s, `targets` a
/// [`Resolved`](crate::Resolved) for each of them, `slots` at least 24 bytes for each: there the
/// [`Report`](crate::Report)s go.
///
/// ```
/// use hauklivo::{Record, Reloc, Report, ReportKind, Resolved, apply_reloc_alloc, flag, ty};
///
/// // ldr x0, [x0, #pageoff] of an address that 8 does not divide: reported, and left.
/// let mut section = 0xf9400000_u32.to_le_bytes();
/// let entries = [Reloc { ty: ty::PAGEOFF12, size: 4, ..Reloc::default() }];
/// let targets = [Resolved { address: 0x1234, flags: flag::HAS_ADDRESS, ..Resolved::default() }];
/// let mut slots = [Report::default(); 1];
/// let n = apply_reloc_alloc(
///     &mut section,
///     0x1000,
///     0,
///     0,
///     Reloc::bytes(&entries),
///     Resolved::bytes(&targets),
///     Report::bytes_mut(&mut slots),
/// )?;
/// assert_eq!(n, 1);
/// assert_eq!(slots[0].kind(), Some(ReportKind::Alignment(8)));
/// assert_eq!(section, 0xf9400000_u32.to_le_bytes());
/// # Ok::<(), hauklivo::Refusal>(())
/// ```
///
/// An AUTHENTICATED_POINTER gets 8 bytes, whatever stood there: in bits 0 to 31 the target's
/// address plus the addend less `image_base`, modulo 2^64; in 32 to 47 the diversity, in 48 the low
/// bit of the address diversity, in 49 and 50 the low two of the key, and bit 63 set. For an
/// imported symbol nothing is written.
///
/// ```
/// use hauklivo::{Refusal, Reloc, Report, Resolved, flag, ty, typed};
///
/// let pointer = Reloc { ty: ty::AUTHENTICATED_POINTER, size: 8, ..Reloc::default() };
/// let entries = [Reloc { diversity: 0xd9bf, address_diversity: 1, key: 2, ..pointer }];
/// let targets = [Resolved { address: 0x100008010, flags: flag::HAS_ADDRESS, ..Resolved::default() }];
/// let (mut section, mut slots) = ([0; 8], [Report::default(); 1]);
/// let mut fix = |image_base| {
///     let done = typed::apply_reloc_alloc(&mut section, 0x100004000, 0, image_base, &entries, &targets, &mut slots);
///     done.map(|_| u64::from_le_bytes(section))
/// };
/// assert_eq!(fix(0x100000000), Ok(0x8005d9bf00008010));
/// assert_eq!(fix(0x100008011), Err(Refusal::FarFromImage)); // the target is below it
/// ```
///
/// # Errors
///
/// In this order: [`Lengths`](Refusal::Lengths), [`Slots`](Refusal::Slots), then entry by entry,
/// but for those that a SUBTRACTOR takes, [`Bounds`](Refusal::Bounds) of its offset,
/// [`Flags`](Refusal::Flags), [`Overflow`](Refusal::Overflow),
/// [`Unsupported`](Refusal::Unsupported), [`LoneSubtractor`](Refusal::LoneSubtractor),
/// [`NeedsSymbol`](Refusal::NeedsSymbol) (of AUTHENTICATED_POINTER too, for any section),
/// [`FarFromImage`](Refusal::FarFromImage) where that difference is above 2^32 - 1, never for an
/// imported symbol, [`Bounds`](Refusal::Bounds) of the bytes that it reads or writes.
pub fn apply_reloc_alloc(
    section: &mut [u8],
    base: u64,
    tls_begin: u64,
    image_base: u64,
    entries: &[u8],
    targets: &[u8],
    slots: &mut [u8],
) -> Result<usize, Refusal> {
    let mut count = 0;
    // SAFETY: as in read_relocs.
    let number = unsafe {
        hauklivo_apply_reloc_alloc(
            section.as_mut_ptr(),
            section.len(),
            base,
            tls_begin,
            image_base,
            entries.as_ptr(),
            entries.len(),
            targets.as_ptr(),
            targets.len(),
            slots.as_mut_ptr(),
            slots.len(),
            &mut count,
        )
    };
    settled(number, count)
}

/// Writes the stub at `address` that jumps through the pointer at `pointer` into the first 12
/// bytes, and says whether its ADRP reaches the pointer's page. It is written in either case.
///
/// ```
/// let mut bytes = [0; 12];
/// assert_eq!(hauklivo::write_stub(&mut bytes, 0x1000, 0x2010), Ok(true));
/// let words = [0xb0000010_u32, 0xf9400a10, 0xd61f0200]; // adrp x16, ldr x16, br x16
/// assert_eq!(bytes[..], words.map(u32::to_le_bytes).concat());
/// assert_eq!(hauklivo::write_stub(&mut bytes, 0, 1 << 32), Ok(false));
/// ```
///
/// # Errors
///
/// [`Bounds`](Refusal::Bounds) for fewer than 12 bytes.
pub fn write_stub(bytes: &mut [u8], address: u64, pointer: u64) -> Result<bool, Refusal> {
    let mut reaches = 0;
    // SAFETY: as in read_relocs.
    let number = unsafe { hauklivo_write_stub(bytes.as_mut_ptr(), bytes.len(), address, pointer, &mut reaches) };
    settled(number, reaches == 1)
}

/// Writes the thunk entry at `address` that jumps to `target` into the first 12 bytes.
///
/// ```
/// let mut bytes = [0; 12];
/// assert_eq!(hauklivo::write_thunk(&mut bytes, 0x1000, 0x2014), Ok(()));
/// let words = [0xb0000010_u32, 0x91005210, 0xd61f0200]; // adrp x16, add x16, br x16
/// assert_eq!(bytes[..], words.map(u32::to_le_bytes).concat());
/// ```
///
/// # Errors
///
/// [`Bounds`](Refusal::Bounds) for fewer than 12 bytes.
pub fn write_thunk(bytes: &mut [u8], address: u64, target: u64) -> Result<(), Refusal> {
    // SAFETY: as in read_relocs.
    let number = unsafe { hauklivo_write_thunk(bytes.as_mut_ptr(), bytes.len(), address, target) };
    settled(number, ())
}

/// Works hints on an image whose bytes are fixed up, and says what became of them: objects by rising
/// number, in each the hints of the kinds 2 to 8 by their position in the list, then those of kind 1.
/// Hints that come by rising object number take time linear in their number; another order takes
/// walks over the list for each object, and quadratic time: sort them.
///
/// `hints` holds [`HintRecord`](crate::HintRecord)s, `entries` [`Reloc`](crate::Reloc)s.
///
/// ```
/// use hauklivo::{HintRecord, HintInsn, Record, Reloc, Tally, apply_hints, kind, ty};
///
/// // adrp x0, 0; add x0, x0, #3: the address is near, so one adr does.
/// let mut image = [0x90000000_u32, 0x91000c00].map(u32::to_le_bytes).concat();
/// let entries = [
///     Reloc { offset: 0, ty: ty::PAGE21, size: 4, is_pcrel: 1, target: 5, ..Reloc::default() },
///     Reloc { offset: 4, ty: ty::PAGEOFF12, size: 4, target: 5, ..Reloc::default() },
/// ];
/// let first = HintInsn { offset: 0, entry: 0, address: 0x1000 };
/// let second = HintInsn { offset: 4, entry: 1, address: 0x1004 };
/// let places = [first, second, HintInsn::default()];
/// let hints = [HintRecord { kind: kind::ADRP_ADD, words: 2, length: 8, places, ..HintRecord::default() }];
///
/// let tally = apply_hints(&mut image, HintRecord::bytes(&hints), Reloc::bytes(&entries))?;
/// assert_eq!(tally, Tally { rewritten: 1, ..Tally::default() });
/// assert_eq!(image, [0x70000000_u32, 0xd503201f].map(u32::to_le_bytes).concat()); // adr x0, 3; nop
/// # Ok::<(), hauklivo::Refusal>(())
/// ```
///
/// # Errors
///
/// In this order: [`Lengths`](Refusal::Lengths), then hint by hint, but for those that are skipped,
/// [`Bounds`](Refusal::Bounds) of its part and of its words, [`NoEntry`](Refusal::NoEntry).
pub fn apply_hints(image: &mut [u8], hints: &[u8], entries: &[u8]) -> Result<Tally, Refusal> {
    let mut tally = Tally::default();
    // SAFETY: as in read_relocs.
    let number = unsafe {
        hauklivo_apply_hints(
            image.as_mut_ptr(),
            image.len(),
            hints.as_ptr(),
            hints.len(),
            entries.as_ptr(),
            entries.len(),
            &mut tally,
        )
    };
    settled(number, tally)
}

/// Works hints as [`apply_hints`] does, with the same image and the same tally, and says of each hint which
/// rule acted. Of its time the same holds; it stores 16 bytes for each hint beside.
///
/// `hints` holds [`HintRecord`](crate::HintRecord)s, `entries` [`Reloc`](crate::Reloc)s, `records` at
/// least 16 bytes for each hint: there a [`RuleRecord`](crate::RuleRecord) for each hint goes, in the order
/// of work: objects by rising number, in each the hints of every kind but 1 by their position in the list,
/// then those of kind 1, also where they are skipped. Bytes after those stay.
///
/// ```
/// use hauklivo::{HintRecord, HintInsn, Record, Reloc, RuleRecord, apply_hints_listed, kind, rule, ty};
///
/// // adrp x0, 0; add x0, x0, #3, and a hint of an object before it, of a kind that there is none of.
/// let mut image = [0x90000000_u32, 0x91000c00].map(u32::to_le_bytes).concat();
/// let entries = [
///     Reloc { offset: 0, ty: ty::PAGE21, size: 4, is_pcrel: 1, target: 5, ..Reloc::default() },
///     Reloc { offset: 4, ty: ty::PAGEOFF12, size: 4, target: 5, ..Reloc::default() },
/// ];
/// let first = HintInsn { offset: 0, entry: 0, address: 0x1000 };
/// let second = HintInsn { offset: 4, entry: 1, address: 0x1004 };
/// let places = [first, second, HintInsn::default()];
/// let hints = [
///     HintRecord { kind: kind::ADRP_ADD, words: 2, object: 9, length: 8, places, ..HintRecord::default() },
///     HintRecord { kind: 200, words: 2, object: 4, ..HintRecord::default() },
/// ];
///
/// let mut records = [RuleRecord::default(); 2];
/// let slots = RuleRecord::bytes_mut(&mut records);
/// let tally = apply_hints_listed(&mut image, HintRecord::bytes(&hints), Reloc::bytes(&entries), slots)?;
/// assert_eq!((tally.rewritten, tally.skipped), (1, 1));
/// let skipped = RuleRecord { position: 1, object: 4, rule: rule::SKIPPED, ..RuleRecord::default() };
/// let adr = RuleRecord { position: 0, object: 9, rule: rule::ADR, changed: 2, ..RuleRecord::default() };
/// assert_eq!(records, [skipped, adr]);
/// # Ok::<(), hauklivo::Refusal>(())
/// ```
///
/// # Errors
///
/// In this order: [`Lengths`](Refusal::Lengths), [`Slots`](Refusal::Slots), then hint by hint, but for
/// those that are skipped, [`Bounds`](Refusal::Bounds) of its part and of its words,
/// [`NoEntry`](Refusal::NoEntry).
pub fn apply_hints_listed(
    image: &mut [u8],
    hints: &[u8],
    entries: &[u8],
    records: &mut [u8],
) -> Result<Tally, Refusal> {
    let mut tally = Tally::default();
    // SAFETY: as in read_relocs.
    let number = unsafe {
        hauklivo_apply_hints_listed(
            image.as_mut_ptr(),
            image.len(),
            hints.as_ptr(),
            hints.len(),
            entries.as_ptr(),
            entries.len(),
            records.as_mut_ptr(),
            records.len(),
            &mut tally,
        )
    };
    settled(number, tally)
}

/// Reads the payload of LC_LINKER_OPTIMIZATION_HINT into a row of values at the start of `slots`: for
/// each hint its kind, a count, and then that many addresses. Says how many values that is; slots after
/// those stay. [`hints`](crate::hints) takes the row apart.
///
/// `payload` has the same values as unsigned LEB128; a spelling may be longer than it need be. The
/// payload's end closes the list, or a kind 0 in any spelling, after which every byte must be zero; a
/// count of 0 and an address of 0 close nothing. Kinds above 8, and counts other than a kind has, are
/// read as they are. `slots` has at least one for each byte of the payload.
///
/// ```
/// use hauklivo::{Refusal, hints, kind, read_hints};
///
/// // An ADRP_ADD of the words at 0 and 0x80, one of a kind that there is none of, and padding.
/// let payload = [7, 2, 0, 0x80, 1, 9, 0, 0, 0];
/// let mut slots = [0; 9];
/// let n = read_hints(&payload, &mut slots)?;
/// assert_eq!(slots[..n], [7, 2, 0, 0x80, 9, 0]);
/// assert!(hints(&slots[..n]).eq([(u64::from(kind::ADRP_ADD), &[0, 0x80][..]), (9, &[])]));
///
/// assert_eq!(read_hints(&payload[..4], &mut slots), Err(Refusal::Malformed));
/// assert_eq!(read_hints(&[0, 7], &mut slots), Err(Refusal::Trailing));
/// # Ok::<(), Refusal>(())
/// ```
///
/// # Errors
///
/// In this order: [`Lengths`](Refusal::Lengths) for more than 2^32 - 1 bytes, [`Slots`](Refusal::Slots)
/// for fewer slots than bytes, then [`Malformed`](Refusal::Malformed) or
/// [`Trailing`](Refusal::Trailing); no payload is both.
pub fn read_hints(payload: &[u8], slots: &mut [u64]) -> Result<usize, Refusal> {
    let mut count = 0;
    // SAFETY: as in read_relocs.
    let number =
        unsafe { hauklivo_read_hints(payload.as_ptr(), payload.len(), slots.as_mut_ptr(), slots.len(), &mut count) };
    settled(number, count)
}

/// The most bytes that [`write_hints`] has for a value.
pub const SPELLING: usize = 10;

/// Writes a row of values, as [`read_hints`] fills it, as a payload at the start of `out`, and says how
/// many bytes that is; bytes after those stay. Each value has its shortest spelling, and no zero is
/// added to close the list. What is written is read back unless it is longer than the 2^32 - 1 bytes
/// that [`read_hints`] takes, which needs a row of more than 429,496,729 values.
///
/// `row` has for each hint its kind, which may not be 0, a count, and then that many addresses; `out` has
/// at least [`SPELLING`] bytes for each value.
///
/// ```
/// use hauklivo::{Refusal, SPELLING, kind, write_hints};
///
/// let row = [u64::from(kind::ADRP_ADD), 2, 0, 0x80];
/// let mut out = [0; 4 * SPELLING];
/// let n = write_hints(&row, &mut out)?;
/// assert_eq!(out[..n], [7, 2, 0, 0x80, 1]);
///
/// assert_eq!(write_hints(&row[..3], &mut out), Err(Refusal::Lengths)); // an address is missing
/// # Ok::<(), Refusal>(())
/// ```
///
/// # Errors
///
/// [`Lengths`](Refusal::Lengths) for more than 2^32 - 1 values, for a row that ends within a hint, and
/// for a kind 0, then [`Slots`](Refusal::Slots) for fewer than [`SPELLING`] bytes for each value.
pub fn write_hints(row: &[u64], out: &mut [u8]) -> Result<usize, Refusal> {
    let mut count = 0;
    // SAFETY: as in read_relocs.
    let number = unsafe { hauklivo_write_hints(row.as_ptr(), row.len(), out.as_mut_ptr(), out.len(), &mut count) };
    settled(number, count)
}

/// The most bytes of text that [`list()`] has for a word.
pub const LINE: usize = 27;

/// Lists the 4-byte words of a section at the start of `out`, and says how many bytes that is; bytes
/// after those stay. A line has the word's offset and the word in hexadecimal, then `adrp`, `add`,
/// `load N`, `store N` (N bytes are moved) or `other`.
///
/// `words` has at most 16,384 bytes, `out` at least [`LINE`] for each word.
///
/// ```
/// let words = [0x90000000_u32, 0x91000400, 0xf9400001, 0xd503201f].map(u32::to_le_bytes).concat();
/// let mut out = [0; 4 * hauklivo::LINE];
/// let n = hauklivo::list(&words, &mut out)?;
/// assert_eq!(
///     str::from_utf8(&out[..n]),
///     Ok("00000000 90000000 adrp\n\
///         00000004 91000400 add\n\
///         00000008 f9400001 load 8\n\
///         0000000c d503201f other\n")
/// );
/// # Ok::<(), hauklivo::Refusal>(())
/// ```
///
/// # Errors
///
/// [`Slots`](Refusal::Slots) for too many words or too little room, then
/// [`Lengths`](Refusal::Lengths) for words that are not whole.
pub fn list(words: &[u8], out: &mut [u8]) -> Result<usize, Refusal> {
    let mut count = 0;
    // SAFETY: as in read_relocs.
    let number = unsafe { hauklivo_list(words.as_ptr(), words.len(), out.as_mut_ptr(), out.len(), &mut count) };
    settled(number, count)
}

/// The class of a word that is a load or store of a register with a scaled unsigned offset, of which hints
/// speak; None for any other, also for pairs, literal loads, unscaled, indexed and exclusive accesses, for
/// a prefetch, and for what the Arm manual leaves unallocated. Bits 31 to 22 decide, and no other counts.
///
/// ```
/// use hauklivo::{LoadStoreClass, load_store_class};
///
/// let load = LoadStoreClass { bytes: 8, is_store: false, is_vector: false, is_ldrsw: false };
/// assert_eq!(load_store_class(0xf9400001), Some(load)); // ldr x1, [x0]
/// let store = LoadStoreClass { bytes: 16, is_store: true, is_vector: true, is_ldrsw: false };
/// assert_eq!(load_store_class(0x3d800421), Some(store)); // str q1, [x1, #16]
/// assert_eq!(load_store_class(0xd503201f), None); // nop
/// ```
pub fn load_store_class(insn: u32) -> Option<LoadStoreClass> {
    LoadStoreClass::from_entry(hauklivo_load_store_class(insn))
}

#[cfg(test)]
mod tests {
    use super::settled;
    use crate::Refusal;

    /// A number that has no name is an error as any other.
    #[test]
    fn numbers_are_errors() {
        assert_eq!(settled(0, 7), Ok(7));
        assert_eq!(settled(14, 7), Err(Refusal::Trailing));
        assert_eq!(settled(200, 7), Err(Refusal::Unknown(200)));
    }
}
