//! What to say when a call ends the program, or never ends: which call it was.

use std::ffi::{c_int, c_uint, c_void};
use std::sync::atomic::{AtomicU64, Ordering};

unsafe extern "C" {
    fn signal(number: c_int, handler: extern "C" fn(c_int)) -> *mut c_void;
    fn write(fd: c_int, bytes: *const c_void, len: usize) -> isize;
    fn alarm(seconds: c_uint) -> c_uint;
    fn _exit(status: c_int) -> !;
}

const SIGILL: c_int = 4;
const SIGBUS: c_int = 7;
const SIGFPE: c_int = 8;
const SIGSEGV: c_int = 11;
const SIGALRM: c_int = 14;

/// A call takes microseconds; one that takes this long never ends.
const SECONDS: c_uint = 60;

static SEED: AtomicU64 = AtomicU64::new(0);
static CALL: AtomicU64 = AtomicU64::new(0);

pub fn start(seed: u64) {
    SEED.store(seed, Ordering::Relaxed);
    for number in [SIGILL, SIGBUS, SIGFPE, SIGSEGV, SIGALRM] {
        // SAFETY: the handler only reads atomics, writes and ends the program.
        unsafe { signal(number, tell) };
    }
}

/// The call of this number begins.
pub fn call(number: u64) {
    CALL.store(number, Ordering::Relaxed);
    // SAFETY: sets the clock that `tell` answers to.
    unsafe { alarm(SECONDS) };
}

extern "C" fn tell(signal: c_int) {
    let what: &[u8] = match signal {
        SIGSEGV | SIGBUS => b"fuzz: memory outside its buffers was touched",
        SIGALRM => b"fuzz: a call does not end",
        _ => b"fuzz: a call ended the program",
    };
    say(what);
    say(b", seed ");
    say_number(SEED.load(Ordering::Relaxed));
    say(b", call ");
    say_number(CALL.load(Ordering::Relaxed));
    say(b"\n");
    // SAFETY: ends the program, as nothing after such a signal can be trusted.
    unsafe { _exit(1) }
}

fn say(text: &[u8]) {
    // SAFETY: a slice is good for its length. What could be done about a failed write to standard error is nothing.
    unsafe { write(2, text.as_ptr().cast(), text.len()) };
}

/// Digit by digit from a table: an emulator may start a handler on a stack that is not aligned, where an array ends the program.
fn say_number(number: u64) {
    const DIGITS: &[u8; 10] = b"0123456789";
    let mut place = 1;
    while number / place >= 10 {
        place *= 10;
    }
    while place > 0 {
        let digit = (number / place % 10) as usize;
        say(&DIGITS[digit..=digit]);
        place /= 10;
    }
}
