//! The hints of a row of values.

use std::iter;

/// The hints of a row as [`read_hints`](crate::read_hints) fills it: of each its kind and its addresses. Of
/// any other row what stands before the first hint that it cuts off.
///
/// ```
/// let row = [7, 2, 0, 4, 9, 0, 7, 2, 0];
/// assert!(hauklivo::hints(&row).eq([(7, &[0, 4][..]), (9, &[])]));
/// ```
pub fn hints(row: &[u64]) -> impl Iterator<Item = (u64, &[u64])> {
    let mut rest = row;
    iter::from_fn(move || {
        let [kind, count, after @ ..] = rest else { return None };
        let (addresses, next) = after.split_at_checked(usize::try_from(*count).ok()?)?;
        rest = next;
        Some((*kind, addresses))
    })
}
