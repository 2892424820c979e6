//! Rounds of interleaved runs in processor time. A ratio is taken within each round, so that a machine whose speed changes
//! from round to round does not sway it.

/// The fewest and the most rounds, and the time that a comparison may take between them.
const FEWEST: usize = 9;
const MOST: usize = 101;
const NANOSECONDS: f64 = 5e8;

/// The times of each round, in nanoseconds, one a job.
pub struct Rounds(Vec<Vec<f64>>);

/// Runs each job once to warm up, then each once in every round: in the order given, and every other round in the opposite.
pub fn rounds(jobs: &mut [&mut dyn FnMut()]) -> Rounds {
    let first: f64 = jobs.iter_mut().map(time).sum();
    let rounds = ((NANOSECONDS / first) as usize).clamp(FEWEST, MOST);
    let mut order: Vec<usize> = (0..jobs.len()).collect();
    let round = |_| {
        let mut times = vec![0.0; jobs.len()];
        for &job in &order {
            times[job] = time(&mut jobs[job]);
        }
        order.reverse();
        times
    };
    Rounds((0..rounds).map(round).collect())
}

impl Rounds {
    /// The rounds with other times, each made of the times of its round: what is taken off is taken off within the round.
    pub fn map(&self, times: impl Fn(&[f64]) -> Vec<f64>) -> Rounds {
        Rounds(self.0.iter().map(|round| times(round)).collect())
    }

    /// The median time of a job.
    pub fn time(&self, job: usize) -> f64 {
        self.median(|round| round[job])
    }

    /// The median ratio of a job's time to that of another.
    pub fn ratio(&self, job: usize, other: usize) -> f64 {
        self.median(|round| round[job] / round[other])
    }

    fn median(&self, of: impl Fn(&[f64]) -> f64) -> f64 {
        let mut values: Vec<f64> = self.0.iter().map(|round| of(round)).collect();
        values.sort_by(f64::total_cmp);
        values[values.len() / 2]
    }
}

fn time(job: &mut &mut dyn FnMut()) -> f64 {
    let start = processor_time();
    job();
    processor_time() - start
}

/// As the C library lays out a time.
#[repr(C)]
struct Time {
    seconds: i64,
    nanoseconds: i64,
}

extern "C" {
    fn clock_gettime(clock: i32, time: *mut Time) -> i32;
}

/// The processor time of this process in nanoseconds; time in which others run does not count.
fn processor_time() -> f64 {
    const OF_THE_PROCESS: i32 = 2;
    let mut time = Time { seconds: 0, nanoseconds: 0 };
    // SAFETY: the call writes one time, and the pointer leads to one.
    let failed = unsafe { clock_gettime(OF_THE_PROCESS, &mut time) };
    assert_eq!(failed, 0, "the system tells no processor time");
    time.seconds as f64 * 1e9 + time.nanoseconds as f64
}
