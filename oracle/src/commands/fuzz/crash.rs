//! Turns an access to inaccessible memory into a printed line and exit code 1.

use std::ptr;
use std::sync::atomic::{AtomicPtr, AtomicUsize, Ordering};

const SIGBUS: i32 = 7;
const SIGSEGV: i32 = 11;

extern "C" {
    fn signal(number: i32, handler: extern "C" fn(i32)) -> usize;
    fn write(file: i32, bytes: *const u8, len: usize) -> isize;
    fn _exit(code: i32) -> !;
}

/// The words for the call under way, read by the handler.
static WORDS: AtomicPtr<u8> = AtomicPtr::new(ptr::null_mut());
static WORDS_LEN: AtomicUsize = AtomicUsize::new(0);

/// Catches crashes from now on.
pub fn install() {
    unsafe {
        signal(SIGSEGV, handle);
        signal(SIGBUS, handle);
    }
}

/// Runs a call; if it crashes, the words are printed.
pub fn under_words<T>(words: &str, call: impl FnOnce() -> T) -> T {
    WORDS.store(words.as_ptr() as *mut u8, Ordering::SeqCst);
    WORDS_LEN.store(words.len(), Ordering::SeqCst);
    let outcome = call();
    WORDS_LEN.store(0, Ordering::SeqCst);
    outcome
}

/// Says where the crash was, with nothing that a signal handler may not call.
extern "C" fn handle(_number: i32) {
    let say = |bytes: &[u8]| unsafe { write(1, bytes.as_ptr(), bytes.len()) };
    let len = WORDS_LEN.load(Ordering::SeqCst);
    say(b"CRASHED: an access outside the lent buffers: ");
    unsafe { write(1, WORDS.load(Ordering::SeqCst), len) };
    say(b"\n");
    unsafe { _exit(1) }
}
