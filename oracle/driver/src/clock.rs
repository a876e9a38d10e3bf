//! The clock of the benchmarks: this thread's processor time, so that other work on the machine counts little.

use std::time::Duration;

pub struct Instant(Duration);

const THREAD_PROCESSOR_TIME: i32 = 3;

extern "C" {
    fn clock_gettime(clock: i32, at: *mut [i64; 2]) -> i32;
}

impl Instant {
    pub fn now() -> Self {
        let mut at = [0; 2];
        // SAFETY: seconds and nanoseconds are written to `at`, which is as large as they are on Linux of 64 bits.
        let failed = unsafe { clock_gettime(THREAD_PROCESSOR_TIME, &mut at) };
        assert_eq!(failed, 0, "this system has no clock of a thread's processor time");
        Instant(Duration::new(at[0] as u64, at[1] as u32))
    }

    pub fn elapsed(&self) -> Duration {
        Instant::now().0.saturating_sub(self.0)
    }
}
