//! Names of relocation types.

use hauklivo::{ty, ty_x86_64};

use crate::object::Machine;

/// The name of a relocation type of a machine.
pub fn type_name(machine: Machine, number: u8) -> &'static str {
    match machine {
        Machine::Arm64 => arm64(number),
        Machine::X86_64 => x86_64(number),
    }
}

fn arm64(number: u8) -> &'static str {
    match number {
        ty::UNSIGNED => "UNSIGNED",
        ty::SUBTRACTOR => "SUBTRACTOR",
        ty::BRANCH26 => "BRANCH26",
        ty::PAGE21 => "PAGE21",
        ty::PAGEOFF12 => "PAGEOFF12",
        ty::GOT_LOAD_PAGE21 => "GOT_LOAD_PAGE21",
        ty::GOT_LOAD_PAGEOFF12 => "GOT_LOAD_PAGEOFF12",
        ty::POINTER_TO_GOT => "POINTER_TO_GOT",
        ty::TLVP_LOAD_PAGE21 => "TLVP_LOAD_PAGE21",
        ty::TLVP_LOAD_PAGEOFF12 => "TLVP_LOAD_PAGEOFF12",
        ty::ADDEND => "ADDEND",
        ty::AUTHENTICATED_POINTER => "AUTHENTICATED_POINTER",
        _ => "unknown",
    }
}

fn x86_64(number: u8) -> &'static str {
    match number {
        ty_x86_64::UNSIGNED => "UNSIGNED",
        ty_x86_64::SIGNED => "SIGNED",
        ty_x86_64::BRANCH => "BRANCH",
        ty_x86_64::GOT_LOAD => "GOT_LOAD",
        ty_x86_64::GOT => "GOT",
        ty_x86_64::SUBTRACTOR => "SUBTRACTOR",
        ty_x86_64::SIGNED_1 => "SIGNED_1",
        ty_x86_64::SIGNED_2 => "SIGNED_2",
        ty_x86_64::SIGNED_4 => "SIGNED_4",
        ty_x86_64::TLV => "TLV",
        _ => "unknown",
    }
}
