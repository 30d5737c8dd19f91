//! The class of a load or store.

/// What a load or store with a scaled unsigned offset moves, and where.
#[derive(Clone, Copy, Debug, PartialEq, Eq, Hash)]
pub struct LoadStoreClass {
    /// The bytes moved: 1, 2, 4, 8 or 16.
    pub bytes: u8,
    /// A store, else a load.
    pub is_store: bool,
    /// Of a vector register, else of a general one.
    pub is_vector: bool,
    /// LDRSW: 4 bytes, sign-extended into 8 of a general register.
    pub is_ldrsw: bool,
}

impl LoadStoreClass {
    const LDRSW: u8 = 1;
    const VECTOR: u8 = 2;
    const STORE: u8 = 4;

    /// The class that an entry of the library's table stands for, as
    /// [`hauklivo_load_store_class`](crate::raw::hauklivo_load_store_class) gives it: 8 times the bytes,
    /// and 4 for a store, 2 for a vector register, 1 for LDRSW. None where no byte is moved. Any other
    /// number is taken apart in the same way, whether or not the table has it.
    ///
    /// ```
    /// use hauklivo::LoadStoreClass;
    ///
    /// let ldrsw = LoadStoreClass { bytes: 4, is_store: false, is_vector: false, is_ldrsw: true };
    /// assert_eq!(LoadStoreClass::from_entry(33), Some(ldrsw));
    /// assert_eq!(LoadStoreClass::from_entry(0), None);
    /// ```
    pub fn from_entry(entry: u8) -> Option<Self> {
        let has = |bit| entry & bit != 0;
        let (is_store, is_vector, is_ldrsw) = (has(Self::STORE), has(Self::VECTOR), has(Self::LDRSW));
        (entry >= 8).then_some(Self { bytes: entry / 8, is_store, is_vector, is_ldrsw })
    }
}
