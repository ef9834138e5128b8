//! The Rust held against what 01 says and against our own side, request by request.
pub mod compare;
pub mod generate;
pub mod given;
pub mod maps;
pub mod ours;
pub mod paper;
pub mod protocol;
pub mod sample;

use std::time::Duration;

/// The Rust flattens components by recursion: a chain of thousands needs more stack than a main thread has.
pub fn on_large_stack(work: impl FnOnce() + Send + 'static) {
    let worker = std::thread::Builder::new().stack_size(1 << 28).spawn(work).expect("a thread can be started");
    if worker.join().is_err() {
        std::process::exit(101);
    }
}

/// The processor's time that this thread has used: other work on the machine shows less in it than in the time of day.
pub fn used() -> Duration {
    #[repr(C)]
    struct Time {
        seconds: i64,
        nanoseconds: i64,
    }
    unsafe extern "C" {
        fn clock_gettime(clock: i32, time: *mut Time) -> i32;
    }
    const THREAD: i32 = 3;
    let mut time = Time { seconds: 0, nanoseconds: 0 };
    // SAFETY: it is lent one `struct timespec`.
    unsafe { clock_gettime(THREAD, &mut time) };
    Duration::new(time.seconds as u64, time.nanoseconds as u32)
}
