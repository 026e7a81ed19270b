//! What a job takes at the library and at two rivals, by the same bytes: `cargo bench --bench jobs`, and `-- quick` for a
//! rough run.
//!
//! The three are measured in turns, in segments of a quarter of a millisecond or more that do the same each time, and of all
//! segments of a job the shortest counts: what else the machine does only ever makes one longer. Before any is timed, all
//! three have answered all of it alike, byte for byte.

mod calls;
mod estates;
mod library;
mod plain;
mod tuned;

use std::hint::black_box;
use std::time::{Duration, Instant};

use estates::{CENTS, KINDS, Kind, SHARES, Seed, all_come, claim, come, prove};
use library::Library;
use plain::Plain;
use tuned::Tuned;

const COUNTS: [usize; 4] = [16, 64, 256, 1024];
/// How long a segment is to be at the side that takes longest, and how many there are of a row in a row.
const SEGMENT: Duration = Duration::from_micros(250);
const BURST: usize = 8;
/// How many claims are proved of an estate.
const PROVES: usize = 128;
/// At how much there the level of an estate is asked for.
const THERES: usize = 256;

trait Desk: Sized {
    fn open(limit: usize) -> Self;
    fn reopen(&mut self);
    fn call(&mut self, call: &[u8], answer: &mut [u8]) -> i64;
    fn level(&self, there: u64) -> (u64, u64);
    const LEVEL: bool;
}

impl Desk for Library {
    fn open(limit: usize) -> Self {
        Library::open(limit).expect("a desk")
    }
    fn reopen(&mut self) {
        Library::reopen(self);
    }
    #[inline(always)]
    fn call(&mut self, call: &[u8], answer: &mut [u8]) -> i64 {
        Library::call(self, call, answer)
    }
    #[cfg(feature = "level")]
    #[inline(always)]
    fn level(&self, there: u64) -> (u64, u64) {
        self.level_of(there)
    }
    #[cfg(not(feature = "level"))]
    fn level(&self, _: u64) -> (u64, u64) {
        unreachable!("built without the level")
    }
    const LEVEL: bool = cfg!(feature = "level");
}

macro_rules! rival {
    ($rival:ident) => {
        impl Desk for $rival {
            fn open(limit: usize) -> Self {
                $rival::open(limit).expect("a desk")
            }
            fn reopen(&mut self) {
                $rival::reopen(self);
            }
            #[inline(always)]
            fn call(&mut self, call: &[u8], answer: &mut [u8]) -> i64 {
                $rival::call(self, call, answer)
            }
            #[inline(always)]
            fn level(&self, there: u64) -> (u64, u64) {
                self.level_of(there)
            }
            const LEVEL: bool = true;
        }
    };
}

rival!(Plain);
rival!(Tuned);

#[derive(Clone, Copy, PartialEq, Debug)]
enum Job {
    Claim,
    Prove,
    Come,
    Level,
    Shares,
    Cents,
}

const JOBS: [Job; 6] = [
    Job::Claim,
    Job::Prove,
    Job::Come,
    Job::Level,
    Job::Shares,
    Job::Cents,
];

/// The calls that make an estate, and what is asked of it.
struct Estate {
    claims: Vec<Vec<u8>>,
    comes: Vec<Vec<u8>>,
    proves: Vec<Vec<u8>>,
    theres: Vec<u64>,
}

/// As many of each kind on both sides of half; more where they are small, so that the processor does not learn by heart
/// which way each branch goes.
fn estates_of(count: usize) -> Vec<Estate> {
    let of = |kind: Kind, losses: bool, seed: &mut Seed| {
        let amounts: Vec<u64> = (0..count).map(|_| kind.claim(seed)).collect();
        let all: u64 = amounts.iter().sum();
        let percent = if losses {
            55 + seed.below(40)
        } else {
            5 + seed.below(40)
        };
        Estate {
            claims: amounts.iter().map(|&cents| claim(cents)).collect(),
            comes: all_come(all * percent / 100),
            proves: proves_of(count, kind, seed),
            theres: (0..THERES).map(|_| seed.below(all + 1)).collect(),
        }
    };
    let mut seed = Seed::new(count as u64);
    let each = (512 / count).clamp(1, 8);
    let kinds = KINDS.iter().flat_map(|&kind| [(kind, false), (kind, true)]);
    kinds
        .cycle()
        .take(2 * KINDS.len() * each)
        .map(|(kind, losses)| of(kind, losses, &mut seed))
        .collect()
}

/// Claims at some places are proved, all of these again and again, so that the last have changed all that the first change.
fn proves_of(count: usize, kind: Kind, seed: &mut Seed) -> Vec<Vec<u8>> {
    let mut places: Vec<u64> = (0..count as u64).collect();
    let mut shuffled = |places: &mut [u64]| {
        for place in 1..places.len() {
            places.swap(place, seed.below(place as u64 + 1) as usize);
        }
    };
    shuffled(&mut places);
    places.truncate(PROVES / 2);
    let mut all = Vec::new();
    while all.len() < PROVES {
        shuffled(&mut places);
        all.extend_from_slice(&places);
    }
    all.iter()
        .map(|&place| prove(place, kind.claim(seed)))
        .collect()
}

/// One side of a job at so many creditors.
struct Side<D> {
    count: usize,
    desks: Vec<D>,
    /// Empty desks, a few of each estate, for claims.
    empty: Vec<D>,
    answer: Vec<u8>,
    least: f64,
}

impl<D: Desk> Side<D> {
    fn new(count: usize, estates: &[Estate]) -> Self {
        let mut answer = vec![0; 24 + 8 * count];
        let made = |estate: &Estate| {
            let mut desk = D::open(count);
            for call in estate.claims.iter().chain(&estate.comes) {
                assert!(desk.call(call, &mut answer) > 0);
            }
            desk
        };
        Side {
            count,
            desks: estates.iter().map(made).collect(),
            empty: Vec::new(),
            answer,
            least: f64::INFINITY,
        }
    }

    /// Each of the estates once, so that it is at hand, and then a segment that counts.
    fn round(&mut self, job: Job, estates: &[Estate], times: usize) {
        self.segment(job, estates, estates.len());
        self.least = self.least.min(self.segment(job, estates, times));
    }

    /// Takes the time of a job that is done about so many times; of one of them.
    fn segment(&mut self, job: Job, estates: &[Estate], times: usize) -> f64 {
        let one = come(1);
        let answer = &mut self.answer[..];
        let desks = &mut self.desks[..];
        let (rounds, taken) = match job {
            Job::Claim => {
                let copies = times.div_ceil(self.count * estates.len());
                self.empty.truncate(copies * estates.len());
                self.empty.iter_mut().for_each(D::reopen);
                self.empty
                    .resize_with(copies * estates.len(), || D::open(self.count));
                let start = Instant::now();
                for (desk, estate) in self.empty.iter_mut().zip(estates.iter().cycle()) {
                    for call in &estate.claims {
                        black_box(desk.call(black_box(call), black_box(answer)));
                    }
                }
                (copies * estates.len() * self.count, start.elapsed())
            }
            Job::Prove => {
                let rounds = times.div_ceil(estates.len() * PROVES);
                let start = Instant::now();
                for _ in 0..rounds {
                    for (desk, estate) in desks.iter_mut().zip(estates) {
                        for call in &estate.proves {
                            black_box(desk.call(black_box(call), black_box(answer)));
                        }
                    }
                }
                (rounds * estates.len() * PROVES, start.elapsed())
            }
            Job::Come => {
                let each = times.div_ceil(estates.len());
                let start = Instant::now();
                for desk in desks.iter_mut() {
                    for _ in 0..each {
                        black_box(desk.call(black_box(&one), black_box(answer)));
                    }
                }
                (each * estates.len(), start.elapsed())
            }
            Job::Level => {
                let rounds = times.div_ceil(estates.len() * THERES);
                let start = Instant::now();
                for _ in 0..rounds {
                    for (desk, estate) in desks.iter().zip(estates) {
                        for &there in &estate.theres {
                            black_box(black_box(desk).level(black_box(there)));
                        }
                    }
                }
                (rounds * estates.len() * THERES, start.elapsed())
            }
            Job::Shares | Job::Cents => {
                let call = if job == Job::Shares { SHARES } else { CENTS };
                let each = times.div_ceil(estates.len());
                let start = Instant::now();
                for _ in 0..each {
                    for desk in desks.iter_mut() {
                        black_box(desk.call(black_box(call), black_box(answer)));
                    }
                }
                (each * estates.len(), start.elapsed())
            }
        };
        taken.as_secs_f64() * 1e9 / rounds as f64
    }
}

/// A job at so many creditors, at all three.
struct Row<'a> {
    job: Job,
    count: usize,
    estates: &'a [Estate],
    library: Side<Library>,
    plain: Side<Plain>,
    tuned: Side<Tuned>,
    /// How often in one segment.
    times: usize,
    rounds: usize,
}

impl<'a> Row<'a> {
    /// As many times in one segment as take that long at the side that takes longest.
    fn new(job: Job, count: usize, estates: &'a [Estate]) -> Self {
        let mut library: Side<Library> = Side::new(count, estates);
        let mut plain: Side<Plain> = Side::new(count, estates);
        let mut tuned: Side<Tuned> = Side::new(count, estates);
        let mut times = estates.len();
        loop {
            let slowest = library
                .segment(job, estates, times)
                .max(plain.segment(job, estates, times))
                .max(tuned.segment(job, estates, times));
            if slowest * times as f64 >= SEGMENT.as_nanos() as f64 / 2.0 || times > 1 << 20 {
                let times = (SEGMENT.as_nanos() as f64 / slowest).ceil() as usize;
                return Row {
                    job,
                    count,
                    estates,
                    library,
                    plain,
                    tuned,
                    times,
                    rounds: 0,
                };
            }
            times *= 2;
        }
    }

    fn burst(&mut self) {
        let Row {
            job,
            estates,
            times,
            ..
        } = *self;
        for _ in 0..BURST {
            self.library.round(job, estates, times);
            self.plain.round(job, estates, times);
            self.tuned.round(job, estates, times);
        }
        self.rounds += BURST;
    }
}

/// All three answer all of it alike, before and behind every change.
fn compare(count: usize, estates: &[Estate]) {
    for (number, estate) in estates.iter().enumerate() {
        let mut library = <Library as Desk>::open(count);
        let mut plain = <Plain as Desk>::open(count);
        let mut tuned = <Tuned as Desk>::open(count);
        let mut answers = [0; 3].map(|_| vec![0xa5; 24 + 8 * count]);
        let mut alike = |call: &[u8]| {
            let [first, second, third] = &mut answers;
            let answered = library.call(call, first);
            assert!(
                answered > 0,
                "{answered}: {call:?}, {count} creditors, estate {number}"
            );
            assert_eq!(
                answered,
                plain.call(call, second),
                "plain: {call:?}, {count} creditors, estate {number}"
            );
            assert_eq!(
                answered,
                tuned.call(call, third),
                "tuned: {call:?}, {count} creditors, estate {number}"
            );
            assert!(
                first == second,
                "plain: {call:?}, {count} creditors, estate {number}"
            );
            assert!(
                first == third,
                "tuned: {call:?}, {count} creditors, estate {number}"
            );
        };
        let last = come(1);
        for calls in [&estate.claims, &estate.comes, &estate.proves, &vec![last]] {
            for (place, call) in calls.iter().enumerate() {
                alike(call);
                if place % 16 == 0 || place + 1 == calls.len() {
                    alike(SHARES);
                    alike(CENTS);
                }
            }
        }
        if Library::LEVEL {
            for &there in &estate.theres {
                let level = library.level(there);
                assert_eq!(
                    level,
                    plain.level(there),
                    "plain: {there}, {count} creditors, estate {number}"
                );
                assert_eq!(
                    level,
                    tuned.level(there),
                    "tuned: {there}, {count} creditors, estate {number}"
                );
            }
        }
    }
}

fn command(name: &str, arguments: &[&str]) -> Option<String> {
    let output = std::process::Command::new(name)
        .args(arguments)
        .output()
        .ok()?;
    Some(String::from_utf8(output.stdout).ok()?.trim().to_string())
}

fn processor() -> Option<String> {
    let text = std::fs::read_to_string("/proc/cpuinfo").ok()?;
    let line = text.lines().find(|line| line.starts_with("model name"))?;
    Some(line.split_once(": ")?.1.to_string())
}

fn main() {
    let words: Vec<String> = std::env::args()
        .skip(1)
        .filter(|word| !word.starts_with("--"))
        .collect();
    let quick = words.iter().any(|word| word == "quick") || std::env::var_os("QUICK").is_some();
    let only: Vec<Job> = JOBS
        .into_iter()
        .filter(|job| words.contains(&format!("{job:?}").to_lowercase()))
        .collect();
    let jobs: Vec<Job> = JOBS
        .into_iter()
        .filter(|job| only.is_empty() || only.contains(job))
        .filter(|&job| job != Job::Level || Library::LEVEL)
        .collect();
    let time = Duration::from_secs_f64(if quick { 7.0 } else { 85.0 });

    let unknown = || "?".to_string();
    println!(
        "{}; {}; {}\n",
        processor().unwrap_or_else(unknown),
        command("rustc", &["--version"]).unwrap_or_else(unknown),
        command("date", &["-u", "+%Y-%m-%d"]).unwrap_or_else(unknown)
    );
    println!(
        "| Job | Creditors | Library, ns | Plain, ns | Tuned, ns | Library / plain | Library / tuned |"
    );
    println!("|---|---|---|---|---|---|---|");

    // All estates are compared before anything is timed.
    let made: Vec<(usize, Vec<Estate>)> = COUNTS.map(|count| (count, estates_of(count))).into();
    for (count, estates) in &made {
        compare(*count, estates);
    }
    let mut rows: Vec<Row> = jobs
        .iter()
        .flat_map(|&job| {
            made.iter()
                .map(move |(count, estates)| Row::new(job, *count, estates))
        })
        .collect();
    // All rows in turns, so that none falls into a slow time alone.
    let start = Instant::now();
    while start.elapsed() < time {
        for row in &mut rows {
            row.burst();
        }
    }
    for Row {
        job,
        count,
        library,
        plain,
        tuned,
        ..
    } in &rows
    {
        let name = format!("{job:?}").to_lowercase();
        let [library, plain, tuned] = [library.least, plain.least, tuned.least];
        println!(
            "| {name} | {count} | {library:.1} | {plain:.1} | {tuned:.1} | {:.2} | {:.2} |",
            library / plain,
            library / tuned
        );
    }
    println!("\nThe shortest of {} segments of each.", rows[0].rounds);
}
