//! A signal that ends the front ends the program first, so that the front can clean up behind it before it ends by the same signal.

use std::sync::atomic::{AtomicI32, Ordering};

unsafe extern "C" {
    fn signal(number: i32, handler: usize) -> usize;
    fn kill(process: i32, number: i32) -> i32;
    fn raise(number: i32) -> i32;
}

const HANGUP: i32 = 1;
const INTERRUPT: i32 = 2;
const TERMINATE: i32 = 15;
const DEFAULT: usize = 0;
const IGNORED: usize = 1;

/// The program that is running, 0 where there is none.
static PROGRAM: AtomicI32 = AtomicI32::new(0);

/// The signal that came, 0 where none did.
static CAME: AtomicI32 = AtomicI32::new(0);

extern "C" fn hand_on(number: i32) {
    CAME.store(number, Ordering::SeqCst);
    let process = PROGRAM.load(Ordering::SeqCst);
    if process > 0 {
        // A call that a handler may make; the process is the front's own child, and no other has its number until it is waited for.
        unsafe { kill(process, number) };
    }
}

/// Hands the signals that ask the front to end on to the program, those excepted that the front was started to ignore.
pub fn caught() {
    for number in [HANGUP, INTERRUPT, TERMINATE] {
        // The handler has the form that the C library asks for.
        unsafe {
            let before = signal(number, hand_on as extern "C" fn(i32) as usize);
            if before == IGNORED {
                signal(number, IGNORED);
            }
        }
    }
}

/// The program that signals go to from now on, one that has come already too; 0 for none.
pub fn go_to(process: u32) {
    PROGRAM.store(process as i32, Ordering::SeqCst);
    let number = CAME.load(Ordering::SeqCst);
    if process > 0 && number > 0 {
        hand_on(number);
    }
}

/// Ends the front by the signal that came, if one did: a shell's loop is to end with it.
pub fn heed() {
    let number = CAME.load(Ordering::SeqCst);
    if number > 0 {
        unsafe {
            signal(number, DEFAULT);
            raise(number);
        }
    }
}
