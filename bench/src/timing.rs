//! The processor's time, and medians of runs that take turns.

/// Nanoseconds that the processor has spent on this process. Unlike the time on
/// the wall it stands still while another process has the processor.
#[cfg(all(target_os = "linux", target_pointer_width = "64"))]
fn now() -> f64 {
    use std::ffi::{c_int, c_long};

    #[repr(C)]
    #[derive(Default)]
    struct Timespec {
        seconds: c_long,
        nanoseconds: c_long,
    }

    unsafe extern "C" {
        fn clock_gettime(clock: c_int, time: *mut Timespec) -> c_int;
    }

    const CLOCK_PROCESS_CPUTIME_ID: c_int = 2;
    let mut time = Timespec::default();
    // SAFETY: the pointer is that of a live value with the C structure's layout.
    let failed = unsafe { clock_gettime(CLOCK_PROCESS_CPUTIME_ID, &mut time) };
    assert_eq!(failed, 0, "the processor's time cannot be read");
    time.seconds as f64 * 1e9 + time.nanoseconds as f64
}

/// Elsewhere the time on the wall has to do.
#[cfg(not(all(target_os = "linux", target_pointer_width = "64")))]
fn now() -> f64 {
    use std::sync::OnceLock;
    use std::time::Instant;

    static START: OnceLock<Instant> = OnceLock::new();
    START.get_or_init(Instant::now).elapsed().as_nanos() as f64
}

/// The median times of some runs in turn, in nanoseconds, after one turn to warm
/// up. They take turns so that a busy machine slows all of them.
pub fn medians<F: FnMut()>(runs: usize, each: &mut [F]) -> Vec<f64> {
    let mut times = vec![Vec::new(); each.len()];
    for turn in 0..=runs {
        for (run, times) in each.iter_mut().zip(&mut times) {
            let start = now();
            run();
            if turn > 0 {
                times.push(now() - start);
            }
        }
    }
    let median = |mut times: Vec<f64>| {
        times.sort_by(f64::total_cmp);
        times[times.len() / 2]
    };
    times.into_iter().map(median).collect()
}

/// The same for a known number of them.
pub fn medians_of<const N: usize>(runs: usize, mut each: [&mut dyn FnMut(); N]) -> [f64; N] {
    medians(runs, &mut each).try_into().expect("a time for each")
}
