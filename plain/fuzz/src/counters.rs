//! How often each place of the program was entered, where it is compiled with `-sanitizer-coverage-inline-8bit-counters`.
//! Each object file hands over its counters before `main`. Compiled without, there is none.
#![allow(unsafe_code, reason = "the compiler's counters are memory of no Rust value")]
use std::ptr;
use std::sync::Mutex;

/// Where counters begin, and how many stand there.
static REGIONS: Mutex<Vec<(usize, usize)>> = Mutex::new(Vec::new());

/// Called by what the compiler puts into each object file; one region may be told again.
#[unsafe(no_mangle)]
extern "C" fn __sanitizer_cov_8bit_counters_init(start: *mut u8, stop: *mut u8) {
    let region = (start as usize, stop as usize - start as usize);
    let mut regions = REGIONS.lock().expect("the regions");
    if !regions.contains(&region) {
        regions.push(region);
    }
}

/// What was entered so far.
pub struct Coverage {
    /// The counters, as they were after a run.
    counts: Vec<u8>,
    /// Of each counter the classes of counts that were met, one bit each.
    seen: Vec<u8>,
}

/// The bit of a count that isn't 0: 1, 2, 3, up to 7, 15, 31, 127 and more are told apart.
fn class(count: u8) -> u8 {
    match count {
        0 => 0,
        1 => 1,
        2 => 2,
        3 => 4,
        4..=7 => 8,
        8..=15 => 16,
        16..=31 => 32,
        32..=127 => 64,
        128.. => 128,
    }
}

impl Coverage {
    pub fn new() -> Coverage {
        let total = REGIONS.lock().expect("the regions").iter().map(|it| it.1).sum();
        Coverage {
            counts: vec![0; total],
            seen: vec![0; total],
        }
    }

    /// How many counters there are, and how many of them were ever entered.
    pub fn entered(&self) -> (usize, usize) {
        (self.seen.iter().filter(|it| **it != 0).count(), self.seen.len())
    }

    /// Reads all counters and sets them to 0.
    fn take(&mut self) {
        let mut rest = self.counts.as_mut_slice();
        for &(start, len) in REGIONS.lock().expect("the regions").iter() {
            let (front, back) = rest.split_at_mut(len);
            let counters = ptr::with_exposed_provenance_mut::<u8>(start);
            // SAFETY: the compiler reserves these bytes for counters as long as the program runs. They are copied and
            // cleared by their address, so no reference to them exists while code counts. There is one thread.
            unsafe {
                ptr::copy_nonoverlapping(counters, front.as_mut_ptr(), len);
                ptr::write_bytes(counters, 0, len);
            }
            rest = back;
        }
    }

    /// Forgets what was entered since the last look.
    pub fn begin(&mut self) {
        self.take();
    }

    /// Whether something was entered since then that never was, or so often as never.
    pub fn is_new(&mut self) -> bool {
        self.take();
        let mut is_new = false;
        for (counts, seen) in self.counts.chunks(8).zip(self.seen.chunks_mut(8)) {
            if counts.iter().all(|it| *it == 0) {
                continue;
            }
            for (count, seen) in counts.iter().zip(seen) {
                let bit = class(*count);
                is_new |= *seen & bit != bit;
                *seen |= bit;
            }
        }
        is_new
    }
}
