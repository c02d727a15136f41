//! Times the oracle and, with the feature `rattle`, a second implementation beside it:
//!
//!     bench CONTAINER [ROUNDS [REPEATS]]
//!
//! One table: with the feature, each function of the arithmetic beside Rust's (libm's); then
//! whole plans (reading, step, report), the accepted ones of the container, by the linear
//! solve that their steps begin. An implementation of a plan is a function of C's calling
//! convention: plan and its length, room and its length, and the length of what it wrote as
//! the result (0 where the room is too small).
//!
//! Rounds are interleaved: in each, every plan is measured in both implementations, one right
//! after the other. A time is the least of its rounds; the spread is the least and the
//! greatest ratio that a single round gave.

use kapitsa_core::plan::{Room, answer_of, pose, read};
use oracle::census::{Solve, solve_of};
use oracle::container;
use std::cell::RefCell;
use std::collections::BTreeMap;
use std::hint::black_box;
use std::io;
use std::process::ExitCode;
use std::time::Instant;

type PoseReport = unsafe extern "C" fn(*const u8, usize, *mut u8, usize) -> usize;

/// The largest report: sixteen bodies of two digits, a space and 13 numbers each.
const REPORT_ROOM: usize = 8_192;

thread_local! {
    static ROOM: RefCell<Room> = RefCell::new(Room::default());
}

/// The oracle behind that interface.
///
/// # Safety
/// `plan` and `out` must be valid for `plan_len` and `out_len` bytes.
unsafe extern "C" fn oracle_pose_report(
    plan: *const u8,
    plan_len: usize,
    out: *mut u8,
    out_len: usize,
) -> usize {
    // SAFETY: the caller vouches for both.
    let (plan, out) = unsafe {
        (
            std::slice::from_raw_parts(plan, plan_len),
            std::slice::from_raw_parts_mut(out, out_len),
        )
    };
    let answer = ROOM.with_borrow_mut(|room| answer_of(plan, room));
    match out.get_mut(..answer.len()) {
        Some(part) => {
            part.copy_from_slice(&answer);
            answer.len()
        }
        None => 0,
    }
}

#[cfg(feature = "rattle")]
mod rattle {
    use super::{Pair, Times};
    use std::f64::consts::TAU;
    use std::hint::black_box;

    unsafe extern "C" {
        /// The second implementation, from the library that build.rs links.
        pub fn pose_report(plan: *const u8, plan_len: usize, out: *mut u8, out_len: usize)
        -> usize;
        fn rattle_sqrt(x: f64) -> f64;
        fn rattle_hypot(x: f64, y: f64) -> f64;
        fn rattle_sin(h: f64) -> f64;
        fn rattle_atan2(y: f64, x: f64) -> f64;
        fn rattle_rem_tau(x: f64) -> f64;
    }

    type Binary = fn(f64, f64) -> f64;

    /// Each function of the arithmetic, ours and Rust's, at x from 0 to 4 and y from -4 to 4.
    /// SAFETY of the calls: the functions take and return doubles.
    const FUNCTIONS: [(&str, Binary, Binary); 5] = [
        ("sqrt", |x, _| unsafe { rattle_sqrt(x) }, |x, _| x.sqrt()),
        (
            "hypot",
            |x, y| unsafe { rattle_hypot(x, y) },
            |x, y| x.hypot(y),
        ),
        (
            "sin and cos",
            |x, _| unsafe { rattle_sin(x) },
            |x, _| {
                let (s, c) = x.sin_cos();
                black_box(c);
                s
            },
        ),
        (
            "atan2",
            |x, y| unsafe { rattle_atan2(y, x) },
            |x, y| y.atan2(x),
        ),
        (
            "remainder by TAU",
            |_, y| unsafe { rattle_rem_tau(y * 10.0) },
            |_, y| (y * 10.0).rem_euclid(TAU),
        ),
    ];

    pub fn arithmetic(rounds: usize) {
        let mut s: u64 = 0x9E37_79B9_7F4A_7C15;
        let mut unit = || {
            s ^= s << 13;
            s ^= s >> 7;
            s ^= s << 17;
            (s >> 11) as f64 / (1u64 << 53) as f64
        };
        let points: Vec<(f64, f64)> = (0..4096)
            .map(|_| (unit() * 4.0, unit() * 8.0 - 4.0))
            .collect();
        for (name, ours, theirs) in FUNCTIONS {
            let mut times = Times::default();
            for _ in 0..rounds {
                let [theirs, ours] = [theirs, ours].map(|f| {
                    super::time(20, || {
                        for &(x, y) in &points {
                            black_box(f(black_box(x), black_box(y)));
                        }
                    }) / points.len() as f64
                });
                times.add(Pair { theirs, ours });
            }
            println!("{name:<24}{:>8}{}", "", times.line(1));
        }
    }
}

/// Nanoseconds of one call, of so many in a row.
fn time(repeats: u32, mut work: impl FnMut()) -> f64 {
    let began = Instant::now();
    for _ in 0..repeats {
        work();
    }
    began.elapsed().as_nanos() as f64 / f64::from(repeats)
}

/// One measurement of both, in nanoseconds.
#[derive(Clone, Copy)]
struct Pair {
    theirs: f64,
    ours: f64,
}

/// The rounds of one thing that is measured.
#[derive(Clone, Default)]
struct Times {
    rounds: Vec<Pair>,
}

impl Times {
    fn add(&mut self, pair: Pair) {
        self.rounds.push(pair);
    }

    fn least(&self) -> Pair {
        let least = |of: fn(&Pair) -> f64| self.rounds.iter().map(of).fold(f64::INFINITY, f64::min);
        Pair {
            theirs: least(|p| p.theirs),
            ours: least(|p| p.ours),
        }
    }

    /// Both times, their ratio, and the spread of the rounds' ratios.
    #[cfg(feature = "rattle")]
    fn line(&self, digits: usize) -> String {
        let ratios = || self.rounds.iter().map(|p| p.ours / p.theirs);
        line(
            self.least(),
            ratios().fold(f64::INFINITY, f64::min),
            ratios().fold(0.0, f64::max),
            digits,
        )
    }
}

fn line(least: Pair, low: f64, high: f64, digits: usize) -> String {
    format!(
        "{:>14.digits$}{:>14.digits$}{:>8.2}   {low:.2} to {high:.2}",
        least.theirs,
        least.ours,
        least.ours / least.theirs
    )
}

fn call(implementation: PoseReport, plan: &[u8], out: &mut [u8]) -> usize {
    // SAFETY: both slices are valid for their lengths.
    unsafe { implementation(plan.as_ptr(), plan.len(), out.as_mut_ptr(), out.len()) }
}

/// Where a plan's time is added: all of them, or those of one linear solve (none: no joint).
type Class = (bool, Option<Solve>);

fn class_name((total, solve): &Class) -> String {
    match (total, solve) {
        (true, _) => "all plans".to_string(),
        (_, None) => "no joint".to_string(),
        (_, Some(Solve::LeastSquares)) => "least squares".to_string(),
        (_, Some(Solve::Path)) => "path".to_string(),
        (_, Some(Solve::Gradients)) => "conjugate gradients".to_string(),
    }
}

fn plans_by_class(
    plans: &[&[u8]],
    other: PoseReport,
    rounds: usize,
    repeats: u32,
) -> io::Result<()> {
    let mut room = Room::default();
    let mut out = vec![0; REPORT_ROOM];
    let mut times = vec![Times::default(); plans.len()];
    for plan in plans {
        let length = call(other, plan, &mut out);
        if out[..length] != answer_of(plan, &mut room)[..] {
            return Err(io::Error::other("the two give different answers"));
        }
    }
    for _ in 0..rounds {
        for (plan, times) in plans.iter().zip(&mut times) {
            let [theirs, ours] = [oracle_pose_report, other].map(|f: PoseReport| {
                time(repeats, || {
                    black_box(call(f, black_box(plan), &mut out));
                })
            });
            times.add(Pair { theirs, ours });
        }
    }
    let mut classes: BTreeMap<Class, Vec<&Times>> = BTreeMap::new();
    for (plan, times) in plans.iter().zip(&times) {
        let records = read(plan).expect("accepted");
        let solve = (!records.joints.is_empty())
            .then(|| solve_of(records.bodies.len() / 26, &records.joints));
        for class in [(false, solve), (true, None)] {
            classes.entry(class).or_default().push(times);
        }
    }
    for (class, members) in &classes {
        let count = members.len() as f64;
        let mean = |pairs: &dyn Fn(&Times) -> Pair| Pair {
            theirs: members.iter().map(|t| pairs(t).theirs).sum::<f64>() / count,
            ours: members.iter().map(|t| pairs(t).ours).sum::<f64>() / count,
        };
        let ratios: Vec<f64> = (0..rounds)
            .map(|round| mean(&|t: &Times| t.rounds[round]))
            .map(|pair| pair.ours / pair.theirs)
            .collect();
        println!(
            "{:<24}{:>8}{}",
            class_name(class),
            members.len(),
            line(
                mean(&Times::least),
                ratios.iter().copied().fold(f64::INFINITY, f64::min),
                ratios.iter().copied().fold(0.0, f64::max),
                0
            )
        );
    }
    Ok(())
}

fn bench() -> io::Result<()> {
    let arguments: Vec<String> = std::env::args().skip(1).collect();
    let usage = || {
        io::Error::new(
            io::ErrorKind::InvalidInput,
            "usage: bench CONTAINER [ROUNDS [REPEATS]]",
        )
    };
    let path = arguments.first().ok_or_else(usage)?;
    let number = |k: usize, otherwise: u32| match arguments.get(k) {
        Some(text) => text.parse().map_err(|_| usage()),
        None => Ok(otherwise),
    };
    let (rounds, repeats) = (number(1, 15)?.max(1) as usize, number(2, 4)?.max(1));
    let file = std::fs::read(path)?;
    let mut room = Room::default();
    let plans: Vec<&[u8]> = container::split(&file)?
        .into_iter()
        .filter(|plan| pose(plan, &mut room).0.refusal.is_none())
        .collect();
    println!(
        "{:<24}{:>8}{:>14}{:>14}{:>8}   {}",
        "nanoseconds", "plans", "Rust", "Rattle", "ratio", "spread"
    );
    #[cfg(feature = "rattle")]
    rattle::arithmetic(rounds);
    #[cfg(feature = "rattle")]
    let other: PoseReport = rattle::pose_report;
    #[cfg(not(feature = "rattle"))]
    let other: PoseReport = oracle_pose_report;
    plans_by_class(&plans, other, rounds, repeats)
}

fn main() -> ExitCode {
    match bench() {
        Ok(()) => ExitCode::SUCCESS,
        Err(error) => {
            eprintln!("bench: {error}");
            ExitCode::FAILURE
        }
    }
}
