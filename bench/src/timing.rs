//! How long a call takes, in time of the processor: other work on the machine counts for little.

use std::sync::LazyLock;

/// A batch takes about this long, where its calls are short enough to need more than one.
const BATCH: f64 = 2e-3;

/// The copies of what the calls of a batch are lent take no more bytes than a cache of the processor has.
const MOST_BYTES: usize = 1 << 20;

/// Batches are repeated for this long, and ten times at least.
const ENOUGH: f64 = 0.4;

#[repr(C)]
struct Time {
    seconds: i64,
    nanoseconds: i64,
}

extern "C" {
    fn clock_gettime(clock: i32, time: *mut Time) -> i32;
}

/// CLOCK_THREAD_CPUTIME_ID of Linux.
const OWN_TIME: i32 = 3;

fn now() -> f64 {
    let mut time = Time { seconds: 0, nanoseconds: 0 };
    assert_eq!(unsafe { clock_gettime(OWN_TIME, &mut time) }, 0, "the clock is read");
    time.seconds as f64 + time.nanoseconds as f64 * 1e-9
}

/// What reading the clock takes by itself.
static OVERHEAD: LazyLock<f64> = LazyLock::new(|| {
    let readings = (0..1_000).map(|_| {
        let start = now();
        now() - start
    });
    readings.fold(f64::MAX, f64::min)
});

/// A call, what it is lent, and the least time it has taken.
pub struct Timed<'a, L, F> {
    lent: &'a L,
    call: F,
    least: f64,
}

impl<'a, L: Clone, F: FnMut(&mut L)> Timed<'a, L, F> {
    pub fn new(lent: &'a L, call: F) -> Timed<'a, L, F> {
        let mut timed = Timed { lent, call, least: f64::MAX };
        timed.batch(1);
        timed
    }

    /// The mean time of calls on copies of what is lent; copying is left out. The clock of a virtual machine may step back: no time at all is
    /// taken for no reading.
    fn batch(&mut self, count: usize) -> f64 {
        let overhead = *OVERHEAD;
        let mut copies = vec![self.lent.clone(); count];
        let start = now();
        copies.iter_mut().for_each(&mut self.call);
        let mean = (now() - start - overhead) / count as f64;
        if mean > 0.0 {
            self.least = self.least.min(mean);
        }
        mean
    }

    fn next(&mut self) -> f64 {
        self.batch(((BATCH / self.least) as usize).clamp(1, MOST_BYTES / size_of::<L>()))
    }
}

/// Seconds of a call in the library and of the same by hand, the least of several each, and how they compare.
#[derive(Clone, Copy)]
pub struct Times {
    pub library: f64,
    pub by_hand: f64,
    /// The median of what batches side by side say: where other work slows both down, it stays.
    pub ratio: f64,
}

impl Times {
    /// The times of one of several calls that were timed together.
    pub fn of_each(self, count: usize) -> Times {
        Times { library: self.library / count as f64, by_hand: self.by_hand / count as f64, ratio: self.ratio }
    }
}

/// Two calls are timed in turns, so that both meet the same machine.
pub fn times<A: Clone, B: Clone>(
    mut library: Timed<A, impl FnMut(&mut A)>,
    mut by_hand: Timed<B, impl FnMut(&mut B)>,
) -> Times {
    let start = now();
    let mut ratios = Vec::new();
    while ratios.len() < 10 || now() - start < ENOUGH {
        ratios.push(library.next() / by_hand.next());
    }
    ratios.sort_by(f64::total_cmp);
    Times { library: library.least, by_hand: by_hand.least, ratio: ratios[ratios.len() / 2] }
}

/// Seconds in a unit that a reader can take in.
pub fn shown(seconds: f64) -> String {
    if seconds < 1e-6 {
        format!("{:.0} ns", seconds * 1e9)
    } else if seconds < 1e-3 {
        format!("{:.1} us", seconds * 1e6)
    } else {
        format!("{:.1} ms", seconds * 1e3)
    }
}
