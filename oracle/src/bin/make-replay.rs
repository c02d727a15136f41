//! Picks the fixed list of plans that the test program `replay` runs, with the
//! oracle's answers: `make-replay SEED TRAPS DIRECTORY`.
//!
//! First come the plans of the directory of traps, by name. Then, of 40,000 random
//! plans of the seed, the smallest that show something the list does not show often
//! enough yet: each answer, each kind, linear solve, family and topology among
//! the accepted, each count of passes, and so on. Smallest first keeps the list
//! short to run.

use kapitsa_core::plan::{Room, pose, read, report};
use oracle::census::{answer_name, kind_name, solve_of};
use oracle::scenes;
use std::collections::BTreeMap;
use std::io;
use std::path::Path;
use std::process::ExitCode;

const DRAWN: u64 = 40_000;
const WANTED: usize = 160;
/// Bytes of plans and answers together.
const MOST_BYTES: usize = 400_000;
/// A plan longer than this is taken only for what nothing shorter shows.
const LONG: usize = 2_400;

struct Candidate {
    name: String,
    plan: Vec<u8>,
    answer: Vec<u8>,
    shows: Vec<String>,
}

/// What a plan shows, by name.
fn shown(family: &str, topology: &str, plan: &[u8], room: &mut Room) -> (Vec<u8>, Vec<String>) {
    let (answer, bodies) = pose(plan, room);
    let mut printed = Vec::new();
    report(answer, &bodies, &mut printed);
    let mut shows = vec![format!("answer {}", answer_name(answer))];
    let Ok(records) = read(plan) else {
        return (printed, shows);
    };
    if answer.refusal.is_some_and(|number| number < 10) {
        return (printed, shows);
    }
    let count = records.bodies.len() / 26;
    let solve = solve_of(count, &records.joints);
    if answer.nonlinear > 0 {
        let passes = match answer.nonlinear {
            0..=4 => answer.nonlinear.to_string(),
            5..=8 => "5 to 8".to_string(),
            9..=16 => "9 to 16".to_string(),
            17..=31 => "17 to 31".to_string(),
            _ => "32".to_string(),
        };
        shows.push(format!("passes {passes}, {}", answer_name(answer)));
        if answer.linear > 0 {
            shows.push(format!("solve {solve:?}, {}", answer_name(answer)));
        }
    }
    if answer.refusal.is_none() {
        shows.push(format!("family {family}"));
        if answer.linear > 0 {
            let many = match count {
                0..=4 => count.to_string(),
                5..=8 => "5 to 8".to_string(),
                9..=15 => "9 to 15".to_string(),
                _ => "16".to_string(),
            };
            shows.push(format!("bodies {many}"));
            shows.push(format!("topology {topology}"));
            for joint in &records.joints {
                shows.push(format!("kind {}", kind_name(&joint.kind)));
                shows.push(format!("kind {} by {solve:?}", kind_name(&joint.kind)));
            }
        }
        let negative_zero = (-0.0_f64).to_bits();
        if bodies
            .chunks_exact(26)
            .any(|body| body[..13].iter().any(|x| x.to_bits() == negative_zero))
        {
            shows.push("a zero below zero in the answer".to_string());
        }
    }
    shows.sort_unstable();
    shows.dedup();
    (printed, shows)
}

/// How many plans must show a thing in a round; a refusal two more.
fn enough(name: &str, often: usize) -> usize {
    if name.starts_with("answer NO") {
        often + 2
    } else {
        often
    }
}

fn make(seed: u64, traps: &Path, directory: &Path) -> io::Result<()> {
    let mut room = Room::default();
    let mut list: Vec<Candidate> = Vec::new();
    let mut paths: Vec<_> = std::fs::read_dir(traps)?
        .map(|entry| entry.map(|entry| entry.path()))
        .collect::<io::Result<_>>()?;
    paths.retain(|path| path.extension().is_some_and(|end| end == "plan"));
    paths.sort();
    for path in &paths {
        let plan = std::fs::read(path)?;
        let (answer, shows) = shown("trap", "trap", &plan, &mut room);
        if answer != std::fs::read(path.with_extension("out"))? {
            return Err(io::Error::other(format!(
                "{}: another answer",
                path.display()
            )));
        }
        list.push(Candidate {
            name: path
                .file_stem()
                .expect("a name")
                .to_string_lossy()
                .into_owned(),
            plan,
            answer,
            shows,
        });
    }
    let mut drawn: Vec<Candidate> = (0..DRAWN)
        .map(|index| {
            let scene = scenes::scene(seed, index, &mut room);
            let (answer, shows) = shown(scene.family, scene.topology, &scene.plan, &mut room);
            Candidate {
                name: format!("{seed}-{index}-{}-{}", scene.family, scene.topology),
                plan: scene.plan,
                answer,
                shows,
            }
        })
        .filter(|candidate| candidate.plan.len() <= usize::from(u16::MAX))
        .collect();
    // Smallest first; equal sizes stay in the order drawn.
    drawn.sort_by_key(|candidate| candidate.plan.len() + candidate.answer.len());

    let mut seen: BTreeMap<String, usize> = BTreeMap::new();
    for candidate in &list {
        for name in &candidate.shows {
            *seen.entry(name.clone()).or_default() += 1;
        }
    }
    let mut bytes: usize = list.iter().map(|c| c.plan.len() + 2 + c.answer.len()).sum();
    let mut taken = vec![false; drawn.len()];
    // Each round asks for one more of everything. A long plan is welcome in the
    // first round only.
    'rounds: for often in 1..=10 {
        for (place, candidate) in drawn.iter().enumerate() {
            let size = candidate.plan.len() + 2 + candidate.answer.len();
            if taken[place] || (often > 1 && candidate.plan.len() > LONG) {
                continue;
            }
            let wanted = candidate
                .shows
                .iter()
                .any(|name| seen.get(name).copied().unwrap_or(0) < enough(name, often));
            if !wanted || bytes + size > MOST_BYTES {
                continue;
            }
            taken[place] = true;
            bytes += size;
            for name in &candidate.shows {
                *seen.entry(name.clone()).or_default() += 1;
            }
            if list.len() + taken.iter().filter(|taken| **taken).count() >= WANTED && often > 1 {
                break 'rounds;
            }
        }
    }
    list.extend(
        drawn
            .into_iter()
            .zip(taken)
            .filter(|(_, taken)| *taken)
            .map(|(candidate, _)| candidate),
    );

    let mut plans = Vec::new();
    let mut answers = Vec::new();
    let mut names = String::new();
    for candidate in &list {
        let length = u16::try_from(candidate.plan.len())
            .map_err(|_| io::Error::other("a plan of more than 65,535 bytes"))?;
        plans.extend_from_slice(&length.to_le_bytes());
        plans.extend_from_slice(&candidate.plan);
        answers.extend_from_slice(&candidate.answer);
        let line = candidate.answer.split(|byte| *byte == b'\n').next();
        let first = String::from_utf8_lossy(line.unwrap_or(b""));
        names.push_str(&format!(
            "{} {} {first}\n",
            candidate.name,
            candidate.plan.len()
        ));
    }
    std::fs::create_dir_all(directory)?;
    std::fs::write(directory.join("plans.bin"), &plans)?;
    std::fs::write(directory.join("stdout"), &answers)?;
    std::fs::write(directory.join("names.txt"), &names)?;
    println!(
        "{} plans: {} bytes of plans, {} bytes of answers, {} things shown",
        list.len(),
        plans.len(),
        answers.len(),
        seen.len()
    );
    Ok(())
}

fn main() -> ExitCode {
    let arguments: Vec<String> = std::env::args().skip(1).collect();
    let result = match arguments.iter().map(String::as_str).collect::<Vec<_>>()[..] {
        [seed, traps, directory] => match seed.parse() {
            Ok(seed) => make(seed, Path::new(traps), Path::new(directory)),
            Err(_) => Err(io::Error::other(format!("not a number: {seed}"))),
        },
        _ => Err(io::Error::other("usage: make-replay SEED TRAPS DIRECTORY")),
    };
    match result {
        Ok(()) => ExitCode::SUCCESS,
        Err(error) => {
            eprintln!("make-replay: {error}");
            ExitCode::FAILURE
        }
    }
}
