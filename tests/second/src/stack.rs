//! A stack for trees as deep as a question's words go: they are walked by
//! recursion, and the stack of a test is short for that.

const BYTES: usize = 256 << 20;

/// Does the work on a deep stack of its own.
pub fn deep<T: Send>(work: impl FnOnce() -> T + Send) -> T {
    std::thread::scope(|scope| {
        let thread = std::thread::Builder::new().stack_size(BYTES).spawn_scoped(scope, work);
        match thread.expect("a thread starts").join() {
            Ok(done) => done,
            Err(panic) => std::panic::resume_unwind(panic),
        }
    })
}
