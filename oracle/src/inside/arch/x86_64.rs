// A private function of x86_64.rs, put inside it as inside/arch/arm64.rs says.

impl crate::words::Forms for X86_64 {
    fn is_supported(bits: u32) -> bool {
        is_supported(&MachRel { offset: 0, bits })
    }
}
