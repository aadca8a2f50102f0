//! How long sides take on the same inputs, in one process.

use std::{hint::black_box, mem::MaybeUninit, time::Duration};

use crate::builds::{self, Build, Made, Task};

/// Rounds of each line.
pub const ROUNDS: usize = 301;

/// How long one side of a round is at least: short, so that many rounds meet no other work on the machine.
const SIDE: Duration = Duration::from_micros(200);

/// In how many depths of the stack the rounds lie: by where in a page its stack lies, a side takes up to 15 % more.
const DEPTHS: usize = 16;

/// Prints tables of times, line by line.
pub struct Bench {
    /// Only lines with this in their name are timed.
    only: String,
    builds: Vec<Build>,
    /// The line above the table, until it is printed with the first line.
    title: Option<String>,
}

impl Bench {
    pub fn new(only: String) -> Self {
        Self { only, builds: builds::load(), title: None }
    }

    /// A table of the library beside each build of the Rust.
    pub fn title(&mut self, name: &str) {
        let columns: String = self.builds.iter().map(|build| format!("{:>26}", build.name)).collect();
        self.title = Some(format!("{name:<62}{:>21}{columns}", "here"));
    }

    /// A table of two other sides: the ratio is of the second by the first.
    pub fn titled(&mut self, name: &str, [first, second]: [&str; 2]) {
        self.title = Some(format!("{name:<62}{first:>21}{second:>21}{:>15}", "ratio"));
    }

    /// Whether a line is timed; if so, the title stands above it.
    fn is_wanted(&mut self, name: &str) -> bool {
        let is_wanted = name.contains(&self.only);
        if let Some(title) = self.title.take_if(|_| is_wanted) {
            println!("\n{title}");
        }
        is_wanted
    }

    /// A line of the library beside each build of the Rust: the same task, of `calls` calls, with the answers that each
    /// build must give, and what the ratio to the first build should be at most, where that is said. A column has the
    /// build's best and the ratio.
    pub fn beside(
        &mut self,
        name: &str,
        calls: usize,
        aim: Option<f64>,
        task: Task<'_>,
        answers: &[u64],
        mut ours: impl FnMut(),
    ) {
        if !self.is_wanted(name) {
            return;
        }
        let mut made: Vec<Made> = self.builds.iter().map(|build| build.make(task)).collect();
        for (build, made) in self.builds.iter().zip(&mut made) {
            assert!(made.answers() == answers, "{name}: {} gives other answers", build.name);
        }
        let mut builds: Vec<_> = made.iter_mut().map(|made| || made.run()).collect();
        let builds = builds.iter_mut().map(|build| build as &mut dyn FnMut());
        let mut sides: Vec<&mut dyn FnMut()> = [&mut ours as &mut dyn FnMut()].into_iter().chain(builds).collect();
        let times = race(&mut sides, calls as f64);
        let (ours, builds) = times.split_first().unwrap();
        let column = |rust: &Vec<f64>| format!("{:>11}{:>15}", told(best(rust)), ratio(ours, rust));
        let columns: String = builds.iter().map(column).collect();
        println!("{name:<62}{:>21}{columns}{}", both(ours), told_aim(aim));
    }

    /// A line of two sides: closures that each make `calls` calls, and what the ratio should be at most, where that is
    /// said.
    pub fn line(
        &mut self,
        name: &str,
        calls: usize,
        aim: Option<f64>,
        mut first: impl FnMut(),
        mut second: impl FnMut(),
    ) {
        if !self.is_wanted(name) {
            return;
        }
        let times = race(&mut [&mut first, &mut second], calls as f64);
        let (first, second) = (&times[0], &times[1]);
        println!("{name:<62}{:>21}{:>21}{:>15}{}", both(first), both(second), ratio(second, first), told_aim(aim));
    }
}

fn told_aim(aim: Option<f64>) -> String {
    aim.map_or(String::new(), |aim| format!("   aim {aim}"))
}

/// Of the bests, and the median of the rounds' own.
fn ratio(ours: &[f64], other: &[f64]) -> String {
    let ratios: Vec<f64> = ours.iter().zip(other).map(|(ours, other)| ours / other).collect();
    format!("{:.2} / {:.2}", best(ours) / best(other), median(&ratios))
}

fn best(times: &[f64]) -> f64 {
    times.iter().copied().fold(f64::INFINITY, f64::min)
}

fn median(times: &[f64]) -> f64 {
    let mut times = times.to_vec();
    times.sort_by(f64::total_cmp);
    times[times.len() / 2]
}

/// Nanoseconds, or microseconds where they are many.
fn told(time: f64) -> String {
    if time < 10_000.0 {
        format!("{time:.1}")
    } else {
        format!("{:.1} µs", time / 1000.0)
    }
}

/// Best and median.
fn both(times: &[f64]) -> String {
    let (best, median) = (best(times), median(times));
    if best < 10_000.0 {
        format!("{best:.1} / {median:.1}")
    } else {
        format!("{:.1} / {:.1} µs", best / 1000.0, median / 1000.0)
    }
}

/// Nanoseconds a call in each round, of all sides in turn; which one begins, and where in the stack, changes from round
/// to round.
fn race(sides: &mut [&mut dyn FnMut()], calls: f64) -> Vec<Vec<f64>> {
    let repeats: Vec<u32> = sides.iter_mut().map(|side| repeats(side)).collect();
    let mut times = vec![Vec::new(); sides.len()];
    for round in 0..ROUNDS {
        for turn in 0..sides.len() {
            let side = (round + turn) % sides.len();
            let deep = round / sides.len() % DEPTHS;
            times[side].push(deeper(deep, &mut || time(sides[side], repeats[side])) / calls);
        }
    }
    times
}

/// The time of a run so many frames, of some 256 bytes, deeper in the stack.
#[inline(never)]
fn deeper(frames: usize, run: &mut dyn FnMut() -> f64) -> f64 {
    let frame = black_box([0u8; 240]);
    let time = if frames == 0 { run() } else { deeper(frames - 1, run) };
    black_box(&frame);
    time
}

/// How often a closure runs in one side of a round; it has run before.
fn repeats(run: &mut dyn FnMut()) -> u32 {
    run();
    let mut repeats = 1;
    while time(run, repeats) * f64::from(repeats) < SIDE.as_nanos() as f64 {
        repeats *= 2;
    }
    repeats
}

/// Nanoseconds of one run, of so many.
fn time(run: &mut dyn FnMut(), repeats: u32) -> f64 {
    let start = processor_time();
    (0..repeats).for_each(|_| run());
    (processor_time() - start).as_nanos() as f64 / f64::from(repeats)
}

/// What the processor has given to this thread so far: waiting for it while other work runs does not count.
fn processor_time() -> Duration {
    let mut time = MaybeUninit::<libc::timespec>::uninit();
    let time = unsafe {
        assert_eq!(libc::clock_gettime(libc::CLOCK_THREAD_CPUTIME_ID, time.as_mut_ptr()), 0);
        time.assume_init()
    };
    Duration::new(time.tv_sec as u64, time.tv_nsec as u32)
}
