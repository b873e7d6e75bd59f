//! A fault or a hang inside the library must end the run with a failed group, not in silence.

use std::sync::atomic::{AtomicPtr, AtomicU64, AtomicUsize, Ordering};

static NAME: AtomicPtr<u8> = AtomicPtr::new(std::ptr::null_mut());
static NAME_LENGTH: AtomicUsize = AtomicUsize::new(0);
static PASSED: AtomicU64 = AtomicU64::new(0);
static FAILED: AtomicU64 = AtomicU64::new(0);

const SIGNALS: [i32; 6] = [4, 6, 7, 8, 11, 14];
const SECONDS_FOR_A_GROUP: u32 = 60;
const SECONDS_FOR_A_LONG_GROUP: u32 = 3_600;

extern "C" {
    fn signal(number: i32, handler: extern "C" fn(i32)) -> usize;
    fn alarm(seconds: u32) -> u32;
    fn write(descriptor: i32, bytes: *const u8, length: usize) -> isize;
    fn _exit(status: i32) -> !;
}

/// Takes over the signals of faults (4, 6, 7, 8, 11) and of the alarm clock (14).
pub fn install() {
    for number in SIGNALS {
        // SAFETY: the handler only writes and ends the process.
        unsafe { signal(number, report) };
    }
}

/// Gives the group that runs more time.
pub fn allow_long() {
    // SAFETY: sets the alarm clock anew.
    unsafe { alarm(SECONDS_FOR_A_LONG_GROUP) };
}

/// Says which group runs from here, after so many passed and failed ones.
pub fn enter(name: &'static str, passed: u64, failed: u64) {
    NAME_LENGTH.store(0, Ordering::SeqCst);
    NAME.store(name.as_ptr().cast_mut(), Ordering::SeqCst);
    NAME_LENGTH.store(name.len(), Ordering::SeqCst);
    PASSED.store(passed, Ordering::SeqCst);
    FAILED.store(failed, Ordering::SeqCst);
    // SAFETY: sets the alarm clock anew.
    unsafe { alarm(SECONDS_FOR_A_GROUP) };
}

fn put(text: &[u8]) {
    // SAFETY: the slice has memory of its length.
    unsafe { write(1, text.as_ptr(), text.len()) };
}

fn put_number(number: u64) {
    let mut rest = number;
    let mut digits = [b'0'; 20];
    let mut first = digits.len();
    loop {
        first -= 1;
        digits[first] = b'0' + (rest % 10) as u8;
        rest /= 10;
        if rest == 0 {
            return put(&digits[first..]);
        }
    }
}

extern "C" fn report(number: i32) {
    put(b"FAIL ");
    let name = NAME.load(Ordering::SeqCst);
    let length = NAME_LENGTH.load(Ordering::SeqCst);
    // SAFETY: pointer and length are those of a static text.
    unsafe { write(1, name, length) };
    put(b": signal ");
    put_number(number.unsigned_abs().into());
    put(b" (4 to 11: a fault; 14: a hang); the groups after it did not run\nhost: ");
    put_number(PASSED.load(Ordering::SeqCst));
    put(b" passed, ");
    put_number(FAILED.load(Ordering::SeqCst) + 1);
    put(b" failed\n");
    // SAFETY: ends the process.
    unsafe { _exit(1) }
}
