//! The time that this thread has had on a core, and an allocator that keeps what it was given.

#[repr(C)]
struct Timespec {
    seconds: i64,
    nanoseconds: i64,
}

unsafe extern "C" {
    fn clock_gettime(clock: i32, into: *mut Timespec) -> i32;
    fn mallopt(parameter: i32, value: i32) -> i32;
}

const CLOCK_THREAD_CPUTIME_ID: i32 = 3;
const M_TRIM_THRESHOLD: i32 = -1;
const M_MMAP_MAX: i32 = -4;

/// Nanoseconds of this thread's own. Other programs on the machine do not add to them.
fn now() -> u64 {
    let mut t = Timespec { seconds: 0, nanoseconds: 0 };
    // SAFETY: the clock is one that Linux has, and `t` is written.
    let done = unsafe { clock_gettime(CLOCK_THREAD_CPUTIME_ID, &mut t) };
    assert_eq!(done, 0);
    t.seconds as u64 * 1_000_000_000 + t.nanoseconds as u64
}

/// How long `f` takes.
pub fn timed(f: impl FnOnce()) -> u64 {
    let start = now();
    f();
    now() - start
}

/// From here on freed memory stays with the program, so that the Rust's reader, which allocates its entries in each
/// call, is not charged for new pages.
pub fn keep_memory() {
    // SAFETY: two parameters of glibc's allocator.
    let kept = unsafe { mallopt(M_MMAP_MAX, 0) == 1 && mallopt(M_TRIM_THRESHOLD, i32::MAX) == 1 };
    assert!(kept);
}
