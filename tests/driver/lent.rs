//! Bytes and 64-bit values lent to the port, between guards that must stay.

const GUARD: usize = 32;

/// What a slot may be: a byte, or a 64-bit value.
pub trait Slot: Copy + PartialEq {
    const GUARD: Self;

    /// What slot i holds before a call.
    fn before(i: usize) -> Self;
}

impl Slot for u8 {
    const GUARD: Self = 0xc3;

    fn before(i: usize) -> Self {
        (i * 37 + 11) as u8
    }
}

impl Slot for u64 {
    const GUARD: Self = 0xc3c3_c3c3_c3c3_c3c3;

    /// The bytes that slots of bytes have there.
    fn before(i: usize) -> Self {
        Self::from_le_bytes(std::array::from_fn(|k| u8::before(8 * i + k)))
    }
}

/// Slots that the port may write.
pub struct Lent<T> {
    slots: Vec<T>,
}

impl<T: Slot> Lent<T> {
    pub fn new(slots: &[T]) -> Self {
        let guard = [T::GUARD; GUARD];
        Self { slots: [&guard, slots, &guard].concat() }
    }

    /// Slots with a pattern, so that a slot that should stay and one that was written differ.
    pub fn slots(len: usize) -> Self {
        Self::new(&pattern(len))
    }

    fn lent(&mut self) -> &mut [T] {
        let end = self.slots.len() - GUARD;
        &mut self.slots[GUARD..end]
    }

    /// Whether nothing outside the lent slots was written.
    pub fn is_guarded(&self) -> bool {
        let end = self.slots.len() - GUARD;
        self.slots[..GUARD].iter().chain(&self.slots[end..]).all(|&slot| slot == T::GUARD)
    }
}

impl Lent<u8> {
    pub fn bytes(&mut self) -> &mut [u8] {
        self.lent()
    }
}

impl Lent<u64> {
    pub fn values(&mut self) -> &mut [u64] {
        self.lent()
    }
}

pub fn pattern<T: Slot>(len: usize) -> Vec<T> {
    (0..len).map(T::before).collect()
}

/// The slots after the first of them have been filled.
pub fn filled<T: Slot>(first: &[T], slots: usize) -> Vec<T> {
    let mut all = pattern(slots);
    all[..first.len()].copy_from_slice(first);
    all
}

pub fn hex(bytes: &[u8]) -> String {
    bytes.iter().map(|b| format!("{b:02x}")).collect()
}
