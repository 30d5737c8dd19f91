//! The oracle's hint runs.

use std::collections::BTreeMap;

use crate::acted::{self, Acted, Rule};
use crate::arch::{Arm64, Target};
use crate::chunks::ChunkHeader;
use crate::context::Context;
use crate::input_files::ObjectFile;
use crate::input_sections::{InputSection, Reloc};
use crate::lent::{self, HintInsn, HintRecord, NO_ENTRY};
use crate::macho::LOH_ARM64_ADRP_ADRP;
use crate::stop::{Stop, caught};
use crate::util::written;
use crate::words::Rules;

#[derive(Clone, Copy, Debug, PartialEq, Eq)]
pub enum Outcome {
    Rewritten,
    Skipped,
    Declined,
    TurnedDown,
}

impl Outcome {
    fn of(rule: Rule) -> Self {
        match rule {
            Rule::Skipped => Self::Skipped,
            Rule::Declined => Self::Declined,
            Rule::TurnedDown => Self::TurnedDown,
            _ => Self::Rewritten,
        }
    }
}

#[derive(Clone, Debug, PartialEq, Eq)]
pub struct HintRun {
    /// By list position.
    pub outcomes: Vec<Outcome>,
    /// The same.
    pub acted: Vec<Acted>,
    /// Rewritten, skipped, declined, turned down by 9.
    pub tally: [u32; 4],
    /// The words written, in their order, each with its offset in the image.
    pub words: Vec<(usize, u32)>,
}

/// Runs the hints, each by the Rust's rule for its kind: objects by rising number, in each the
/// two passes by list position. On a stop the image is as the Rust left it.
///
/// Skipped is a kind without a rule, or another count than the kind's. What became of any other hint is told from the words
/// that its rule wrote (acted.rs).
pub fn apply_hints(image: &mut [u8], hints: &[u8], entries: &[u8]) -> Result<HintRun, Stop> {
    let hints = lent::hints(hints);
    let entries = lent::entries(entries);
    let (mut acted, mut words) = (vec![Acted::SKIPPED; hints.len()], Vec::new());
    for list in by_object(&hints).into_values() {
        for last in [false, true] {
            for &i in &list {
                if (hints[i].kind == LOH_ARM64_ADRP_ADRP) == last && !is_skipped(&hints[i]) {
                    let (done, written) = apply_hint(image, &hints[i], &entries)?;
                    acted[i] = done;
                    words.extend(written.iter().map(|&(at, word)| (hints[i].start as usize + at, word)));
                }
            }
        }
    }
    let outcomes: Vec<_> = acted.iter().map(|acted| Outcome::of(acted.rule)).collect();
    let tally = [Outcome::Rewritten, Outcome::Skipped, Outcome::Declined, Outcome::TurnedDown]
        .map(|outcome| outcomes.iter().filter(|&&o| o == outcome).count() as u32);
    Ok(HintRun { outcomes, acted, tally, words })
}

/// Each object's hints by list position.
fn by_object(hints: &[HintRecord]) -> BTreeMap<u32, Vec<usize>> {
    let mut objects: BTreeMap<u32, Vec<usize>> = BTreeMap::new();
    for (i, hint) in hints.iter().enumerate() {
        objects.entry(hint.object).or_default().push(i);
    }
    objects
}

fn is_skipped(hint: &HintRecord) -> bool {
    Arm64::word_count(hint.kind) != Some(hint.count as usize)
}

/// What is done with a hint that is not skipped, and the words written in its part.
fn apply_hint(image: &mut [u8], hint: &HintRecord, entries: &[Reloc]) -> Result<(Acted, Vec<(usize, u32)>), Stop> {
    let (start, length) = (hint.start as usize, hint.length as usize);
    let part = caught(|| &mut image[start..][..length])?;
    let places = caught(|| {
        let rel = |e: u32| (e != NO_ENTRY).then(|| &entries[e as usize]);
        let place = |p: &HintInsn| (p.offset as usize, p.address, rel(p.entry));
        hint.places[..hint.count as usize].iter().map(place).collect::<Vec<_>>()
    })?;
    acted::run(hint.kind, part, &places)
}

/// The same run by the Rust's own apply_hints and hint_insns, which find a word's address and
/// entry from its offset. None where the lent hints do not say the same as those two can find:
/// parts within the image, words within their parts, entries that are there, addresses that
/// go with the offsets, and one answer for an offset that is named twice. An overflow is a stop
/// here, and ends the run. The answer is the words written, as of `HintRun`.
pub fn apply_hints_linked(image: &mut [u8], hints: &[u8], entries: &[u8]) -> Option<Result<Vec<(usize, u32)>, Stop>> {
    let linked = Linked::new(image.len(), hints, entries)?;
    let (done, words) = written(image, |image| caught(|| linked.run(image)));
    Some(done.map(|()| words))
}

/// A run of the Rust's own apply_hints with its objects made, so that it can be timed alone.
pub struct Linked {
    ctx: Context<Arm64>,
}

impl Linked {
    pub fn new(image_len: usize, hints: &[u8], entries: &[u8]) -> Option<Self> {
        let hints = lent::hints(hints);
        let entries = lent::entries(entries);
        let mut ctx = Context::<Arm64>::default();
        for list in by_object(&hints).into_values() {
            let mut object = ObjectFile { is_reachable: true, ..Default::default() };
            for i in list {
                let hint = &hints[i];
                let n = hint.count as usize;
                let mut addrs = vec![0; n];
                let mut isec = InputSection::new(ctx.objs.len() as u32, 0, 0, hint.length, &[]);
                isec.rel_offset = object.relocs.len() as u32;
                isec.output_section = i as u32;
                let mut header = ChunkHeader { fileoff: hint.start as u64, ..Default::default() };
                if !is_skipped(hint) {
                    let places = &hint.places[..n];
                    header.addr = link(&mut object.relocs, image_len, hint, places, &entries)?;
                    addrs = places.iter().map(|p| p.offset as u64).collect();
                }
                isec.nrels = object.relocs.len() as u32 - isec.rel_offset;
                object.loh_subsecs.push(ctx.isecs.len() as u32);
                object.loh.push((hint.kind, addrs));
                ctx.isecs.push(isec);
                ctx.headers.resize(ctx.headers.len().max(i + 1), ChunkHeader::default());
                ctx.headers[i] = header;
            }
            ctx.objs.push(object);
        }
        Some(Self { ctx })
    }

    /// The Rust's own call.
    pub fn run(&self, image: &mut [u8]) {
        Arm64::apply_optimization_hints(&self.ctx, image)
    }
}

/// The rules alone, over hints whose words, addresses and entries are given, as the port is lent
/// them: the loops of the Rust's apply_hints without its hint_insns.
pub struct Given {
    objects: Vec<Vec<HintRecord>>,
    entries: Vec<Reloc>,
}

impl Given {
    pub fn new(hints: &[u8], entries: &[u8]) -> Self {
        let mut objects: BTreeMap<u32, Vec<HintRecord>> = BTreeMap::new();
        for hint in lent::hints(hints) {
            objects.entry(hint.object).or_default().push(hint);
        }
        Self { objects: objects.into_values().collect(), entries: lent::entries(entries) }
    }

    pub fn run(&self, image: &mut [u8]) {
        let rel = |e: u32| self.entries.get(e as usize);
        for hints in &self.objects {
            for last in [false, true] {
                for hint in hints {
                    if (hint.kind == LOH_ARM64_ADRP_ADRP) != last || is_skipped(hint) {
                        continue;
                    }
                    let places = hint.places.map(|p| (p.offset as usize, p.address, rel(p.entry)));
                    let part = &mut image[hint.start as usize..][..hint.length as usize];
                    Arm64::run_rule(hint.kind, part, &places[..hint.count as usize]);
                }
            }
        }
    }
}

/// Adds the entries of a hint's places to `relocs`, by rising offset, and gives its part's address.
fn link(
    relocs: &mut Vec<Reloc>,
    image_len: usize,
    hint: &HintRecord,
    places: &[HintInsn],
    entries: &[Reloc],
) -> Option<u64> {
    if hint.start as usize + hint.length as usize > image_len {
        return None;
    }
    let address = places[0].address.checked_sub(places[0].offset as u64)?;
    let mut found: BTreeMap<u32, u32> = BTreeMap::new();
    for p in places {
        let fits = p.offset as u64 + 4 <= hint.length as u64;
        let linear = address.checked_add(p.offset as u64) == Some(p.address);
        let known = p.entry == NO_ENTRY || (p.entry as usize) < entries.len();
        if !fits || !linear || !known || *found.entry(p.offset).or_insert(p.entry) != p.entry {
            return None;
        }
    }
    for (offset, entry) in found {
        if entry != NO_ENTRY {
            relocs.push(Reloc { offset, ..entries[entry as usize] });
        }
    }
    Some(address)
}
