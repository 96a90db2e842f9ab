//! The least processor time of a call, of many runs.

use super::{Memory, Work};
use crate::calls::Calls;
use crate::library::Library;
use crate::perform::make;
use crate::reference::Model;
use std::hint::black_box;
use std::time::{Duration, Instant};

/// A second and its part in nanoseconds, as clock_gettime gives them.
#[repr(C)]
struct Timespec {
    seconds: i64,
    nanoseconds: i64,
}

extern "C" {
    fn clock_gettime(clock: i32, time: *mut Timespec) -> i32;
}

/// The processor time of this thread: what other programs take does not count.
fn now() -> Duration {
    const THREAD: i32 = 3;
    let mut time = Timespec { seconds: 0, nanoseconds: 0 };
    // SAFETY: the pointer is to a local of the right layout.
    let status = unsafe { clock_gettime(THREAD, &mut time) };
    assert_eq!(status, 0, "a clock for the thread's processor time");
    Duration::new(time.seconds as u64, time.nanoseconds as u32)
}

/// A measurement repeats the call until it takes at least this.
const LEAST: Duration = Duration::from_millis(1);
/// In a round, the measurements of a work are repeated for so long, and at least so often.
const FOR: Duration = Duration::from_millis(300);
const OFTEN: usize = 7;
/// All works are measured in so many rounds: what disturbs the machine for a while does not meet every measurement of a work.
const ROUNDS: usize = 4;

/// Nanoseconds of one call: the least that was measured.
#[derive(Clone)]
pub struct Times {
    pub library: f64,
    pub model: f64,
}

/// Measures each of the works.
pub fn times(works: &[Work]) -> Vec<Times> {
    works.iter().for_each(Work::check);
    let mut least = vec![Times { library: f64::INFINITY, model: f64::INFINITY }; works.len()];
    for _ in 0..ROUNDS {
        for (work, least) in works.iter().zip(&mut least) {
            measure_for(work, least);
        }
    }
    least
}

/// Measures library and model in turn, so that both meet the same disturbances.
fn measure_for(work: &Work, least: &mut Times) {
    let sides = [(&Library as &dyn Calls, &mut least.library), (&Model, &mut least.model)];
    let mut sides = sides.map(|(calls, least)| (calls, repeats(calls, work), least));
    let start = Instant::now();
    let mut rounds = 0;
    while rounds < OFTEN || start.elapsed() < FOR {
        for (calls, repeats, least) in &mut sides {
            let nanoseconds = measure(*calls, work, *repeats).as_secs_f64() * 1e9;
            **least = least.min(nanoseconds / f64::from(*repeats));
        }
        rounds += 1;
    }
}

/// How many calls take more than `LEAST`.
fn repeats(calls: &dyn Calls, work: &Work) -> u32 {
    let mut repeats = 1;
    while measure(calls, work, repeats) < LEAST {
        repeats *= 2;
    }
    repeats
}

fn measure(calls: &dyn Calls, work: &Work, repeats: u32) -> Duration {
    let mut memory = Memory::default();
    let start = now();
    for _ in 0..repeats {
        let lent = black_box(work).lent(&mut memory);
        black_box(make(calls, work.call, lent));
    }
    black_box(&memory);
    now() - start
}
