//! Contours need almost 2 MB of stack and a coupling 3, which not every thread has: they run in a thread of their own.

use std::thread;

const LARGE_STACK: usize = 8 << 20;

/// Makes the call in a thread with a large stack. Panics where the system gives no thread.
pub fn on_a_large_stack<T: Send>(call: impl FnOnce() -> T + Send) -> T {
    thread::scope(|scope| {
        let started = thread::Builder::new().stack_size(LARGE_STACK).spawn_scoped(scope, call);
        started.expect("a thread starts").join().expect("a call of the library doesn't panic")
    })
}
