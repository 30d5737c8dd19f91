//! The whole work on one arm64 object: records into entries, layout, targets, fix-up, hints.

use hauklivo::{Reloc, Report, Resolved};

use crate::Fault;
use crate::calls::Calls;
use crate::entries;
use crate::hints::{self, HintRun};
use crate::layout::{Holds, Layout, Options};
use crate::needs::Needs;
use crate::object::{Machine, Object};
use crate::refused;
use crate::targets::Laid;

/// A linked object.
#[derive(Clone, Debug, PartialEq, Eq)]
pub struct Linked {
    /// Where everything is.
    pub layout: Layout,
    /// The sections that are laid out, in the order of their addresses.
    pub sections: Vec<LinkedSection>,
    /// Symbols whose stub does not reach its pointer.
    pub far_stubs: Vec<u32>,
    /// The image before fix-up, its sections as the object has them.
    pub before: Vec<u8>,
    /// The image after fix-up, before the hints.
    pub fixed: Vec<u8>,
    /// The finished image.
    pub image: Vec<u8>,
    /// What became of the hints.
    pub hints: HintRun,
}

/// A section with its entries.
#[derive(Clone, Debug, PartialEq, Eq)]
pub struct LinkedSection {
    /// Its number, counted from 0.
    pub section: usize,
    /// Its address.
    pub address: u64,
    /// Where its bytes are in the image.
    pub start: usize,
    /// Its entries.
    pub entries: Vec<Reloc>,
    /// The target of each entry.
    pub targets: Vec<Resolved>,
    /// The reports of its fix-up.
    pub reports: Vec<Report>,
}

/// Links `object` by `calls`.
///
/// # Errors
///
/// A sentence for an object that is not for arm64, for a layout that does not fit, for an entry of no symbol, and for a
/// refused call.
pub fn link(object: &Object, options: &Options, calls: &Calls) -> Result<Linked, Fault> {
    if object.machine != Machine::Arm64 {
        return Err(Fault::new(
            "this is an x86_64 object, and only arm64 objects are laid out; --entries lists its entries",
        ));
    }
    let lists = entries::chosen(object, calls, |section| options.debug || !section.is_debug())?;
    let layout = lay_out(object, options, &lists)?;
    let laid = Laid { object, layout: &layout };
    let (before, far_stubs) = unfixed_image(laid, calls)?;
    let mut fixed = before.clone();
    let mut sections = Vec::new();
    for part in &layout.parts {
        let Holds::Section(section) = part.holds else { continue };
        let mut linked = LinkedSection {
            section,
            address: part.address,
            start: part.bytes.start,
            entries: lists[section].clone(),
            targets: Vec::new(),
            reports: Vec::new(),
        };
        fix_up(laid, calls, &mut linked, &mut fixed[part.bytes.clone()])?;
        sections.push(linked);
    }
    let mut image = fixed.clone();
    let hints = hints::run(object, &sections, calls, &fixed, &mut image)?;
    Ok(Linked { layout, sections, far_stubs, before, fixed, image, hints })
}

/// The layout, with thunk entries for the branches that do not reach without them.
fn lay_out(object: &Object, options: &Options, lists: &[Vec<Reloc>]) -> Result<Layout, Fault> {
    let mut needs = Needs::of(object, lists.iter().flatten());
    let layout = Layout::new(object, options, &needs)?;
    let laid = Laid { object, layout: &layout };
    for ((list, address), section) in lists.iter().zip(&layout.sections).zip(&object.sections) {
        let Some(address) = address else { continue };
        let thunks = &mut needs.thunks[usize::from(!section.is_text())];
        for entry in list {
            thunks.extend(laid.needs_thunk(entry, address.wrapping_add(entry.offset.into())));
        }
    }
    match needs.thunks.iter().all(|thunks| thunks.is_empty()) {
        true => Ok(layout),
        false => Layout::new(object, options, &needs),
    }
}

/// The image before fix-up: sections as the object has them, and what the linker adds. With it the
/// symbols whose stub does not reach its pointer.
fn unfixed_image(laid: Laid, calls: &Calls) -> Result<(Vec<u8>, Vec<u32>), Fault> {
    let layout = laid.layout;
    let mut image = vec![0; layout.image_size];
    let mut far_stubs = Vec::new();
    for part in &layout.parts {
        let bytes = &mut image[part.bytes.clone()];
        let item = |address: u64| (address - part.address) as usize..;
        match part.holds {
            Holds::Section(section) => bytes.copy_from_slice(laid.object.sections[section].contents),
            Holds::Stubs => {
                for (symbol, &address) in &layout.stubs {
                    let into = &mut bytes[item(address)];
                    let reaches = (calls.write_stub)(into, address, layout.got[symbol])
                        .map_err(|r| Fault::refused("a stub", r, None))?;
                    far_stubs.extend((!reaches).then_some(*symbol));
                }
            }
            Holds::Thunks(table) => {
                for (&symbol, &address) in &layout.thunks[table] {
                    let into = &mut bytes[item(address)];
                    (calls.write_thunk)(into, address, laid.branch_target(symbol))
                        .map_err(|r| Fault::refused("a thunk entry", r, None))?;
                }
            }
            Holds::Got => {
                for (&symbol, &address) in &layout.got {
                    let value = laid.symbol_address(symbol).unwrap_or(0);
                    bytes[item(address)][..8].copy_from_slice(&value.to_le_bytes());
                }
            }
            Holds::Commons => {}
        }
    }
    Ok((image, far_stubs))
}

/// Resolves the targets of a section's entries and fixes up its bytes.
fn fix_up(laid: Laid, calls: &Calls, linked: &mut LinkedSection, bytes: &mut [u8]) -> Result<(), Fault> {
    let section = &laid.object.sections[linked.section];
    for entry in &linked.entries {
        let place = linked.address.wrapping_add(entry.offset.into());
        let target = laid.resolve(entry, place);
        linked.targets.push(target.ok_or_else(|| Fault::no_symbol(laid.object, section, entry))?);
    }
    let &Layout { tls_begin, image_base, .. } = laid.layout;
    let (base, entries, targets) = (linked.address, &linked.entries, &linked.targets);
    let mut reports = vec![Report::default(); entries.len()];
    let count = (calls.apply_reloc_alloc)(bytes, base, tls_begin, image_base, entries, targets, &mut reports)
        .map_err(|r| refused::fixing(laid, linked, r))?;
    reports.truncate(count);
    linked.reports = reports;
    Ok(())
}
