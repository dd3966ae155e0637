//! Who watches the calls. Each thread says at its post which case it plays and when a call begins and
//! ends; a call that does not end in time, or strays into a guard page, ends the run with that case.

use std::cell::Cell;
use std::ffi::{c_int, c_void};
use std::sync::atomic::{AtomicU64, Ordering};
use std::time::{Duration, Instant};

pub const POSTS: usize = 2;

struct Post {
    case: AtomicU64,
    /// Calls begun and calls ended, together: odd while one runs.
    calls: AtomicU64,
}

static POST: [Post; POSTS] = [const {
    Post {
        case: AtomicU64::new(0),
        calls: AtomicU64::new(0),
    }
}; POSTS];

thread_local! {
    static MINE: Cell<usize> = const { Cell::new(0) };
}

/// The thread's post, to be taken before its first case.
pub fn take_post(post: usize) {
    MINE.set(post);
}

pub fn begin_case(case: u64) {
    POST[MINE.get()].case.store(case, Ordering::Relaxed);
}

/// A call of the library, which is being watched.
pub fn watched<T>(call: impl FnOnce() -> T) -> T {
    let calls = &POST[MINE.get()].calls;
    calls.fetch_add(1, Ordering::SeqCst);
    let told = call();
    calls.fetch_add(1, Ordering::SeqCst);
    told
}

/// Looks at the posts for as long as the program runs.
pub fn start(patience: Duration) {
    std::thread::spawn(move || {
        let mut seen = [(0, Instant::now()); POSTS];
        loop {
            std::thread::sleep(patience / 20);
            for (post, seen) in POST.iter().zip(&mut seen) {
                let calls = post.calls.load(Ordering::SeqCst);
                if calls % 2 == 0 || calls != seen.0 {
                    *seen = (calls, Instant::now());
                } else if seen.1.elapsed() > patience {
                    let case = post.case.load(Ordering::SeqCst);
                    eprintln!("damage: case {case}: a call does not end");
                    std::process::exit(1);
                }
            }
        }
    });
}

/// From now on a stray access is told with its case.
pub fn catch_strays() {
    for signal_number in [SIGBUS, SIGSEGV] {
        // SAFETY: the handler calls nothing but write and _exit, and reads atomics.
        unsafe { signal(signal_number, stray) };
    }
}

extern "C" fn stray(_: c_int) {
    let case = POST[MINE.get()].case.load(Ordering::SeqCst);
    let mut line = *b"damage: a stray access in case                     \n";
    let mut rest = case;
    for place in (31..51).rev() {
        line[place] = b'0' + (rest % 10) as u8;
        rest /= 10;
        if rest == 0 {
            break;
        }
    }
    // SAFETY: both may be called in a handler.
    unsafe {
        write(2, line.as_ptr().cast(), line.len());
        _exit(1);
    }
}

const SIGBUS: c_int = 7;
const SIGSEGV: c_int = 11;

extern "C" {
    fn signal(number: c_int, handler: extern "C" fn(c_int)) -> *mut c_void;
    fn write(file: c_int, bytes: *const c_void, count: usize) -> isize;
    fn _exit(status: c_int) -> !;
}
