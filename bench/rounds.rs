//! Two ways to the same work, timed one after the other in many rounds by the processor time that they take, so that the machine's
//! other work hardly counts; what it still costs falls on both alike, so that the rounds' ratios say more than the times.

#[repr(C)]
struct Timespec {
    seconds: i64,
    nanoseconds: i64,
}

const CLOCK_THREAD_CPUTIME_ID: i32 = 3;

extern "C" {
    fn clock_gettime(clock: i32, time: *mut Timespec) -> i32;
}

/// Seconds that this thread has had of a processor.
fn processor_time() -> f64 {
    let mut time = Timespec { seconds: 0, nanoseconds: 0 };
    unsafe { clock_gettime(CLOCK_THREAD_CPUTIME_ID, &mut time) };
    time.seconds as f64 + time.nanoseconds as f64 * 1e-9
}

/// Seconds for the work of a round: medians, and the port's over the crate's at the 10th, 50th and 90th hundredth of the rounds.
pub struct Measured {
    pub port: f64,
    pub other: f64,
    pub slower: [f64; 3],
}

fn seconds(work: &mut dyn FnMut()) -> f64 {
    let start = processor_time();
    work();
    processor_time() - start
}

fn at(list: &mut [f64], percent: usize) -> f64 {
    list.sort_by(f64::total_cmp);
    list[(list.len() - 1) * percent / 100]
}

/// Every other round begins with the other one.
pub fn beside(rounds: usize, port: &mut dyn FnMut(), other: &mut dyn FnMut()) -> Measured {
    let (mut ports, mut others, mut slower) = (vec![], vec![], vec![]);
    for round in 0..rounds {
        let (a, b) = if round % 2 == 0 {
            let a = seconds(port);
            (a, seconds(other))
        } else {
            let b = seconds(other);
            (seconds(port), b)
        };
        ports.push(a);
        others.push(b);
        slower.push(a / b);
    }
    Measured { port: at(&mut ports, 50), other: at(&mut others, 50), slower: [10, 50, 90].map(|percent| at(&mut slower, percent)) }
}

impl Measured {
    /// A line of the table of rates: `count` pieces of work were done in a round.
    pub fn print_rate(&self, what: &str, count: usize) {
        let [low, median, high] = self.slower;
        let rate = |seconds: f64| count as f64 / seconds;
        let nanoseconds = |seconds: f64| seconds * 1e9 / count as f64;
        println!(
            "| {what} | {:.0} | {:.0} | {:.0} | {:.0} | {:.2} | {:.2} to {:.2} |",
            rate(self.port),
            rate(self.other),
            nanoseconds(self.port),
            nanoseconds(self.other),
            1.0 / median,
            1.0 / high,
            1.0 / low,
        );
    }

    /// A line of the table of functions, of which `count` calls were made in a round.
    pub fn print_calls(&self, what: &str, count: usize) {
        let [low, median, high] = self.slower;
        let nanoseconds = |seconds: f64| seconds * 1e9 / count as f64;
        println!("| {what} | {:.1} | {:.1} | {median:.2} | {low:.2} to {high:.2} |", nanoseconds(self.port), nanoseconds(self.other));
    }
}
