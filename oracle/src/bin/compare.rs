//! Compares a program with the oracle on random plans, every byte it prints:
//!
//!     compare SEED COUNT [--pose PROGRAM] [--save DIRECTORY] [--workers N] [--seconds N]
//!     compare --container FILE [the same]
//!     compare .. -- PROGRAM ARGUMENTS
//!
//! The program reads one plan on standard input. Plans on which the two differ are
//! saved with both answers. A program that takes longer than the seconds given is
//! ended and counts as a difference.

use kapitsa_core::plan::{Room, pose, report};
use oracle::{census::Census, container, scenes};
use std::io::{self, ErrorKind, Read, Write};
use std::path::{Path, PathBuf};
use std::process::{Child, Command, ExitCode, Stdio};
use std::sync::atomic::{AtomicBool, AtomicU64, Ordering};
use std::sync::{Arc, Mutex};
use std::thread;
use std::time::{Duration, Instant};

struct Options {
    seed: u64,
    count: u64,
    container: Option<PathBuf>,
    /// The program and its arguments.
    pose: Vec<String>,
    save: PathBuf,
    workers: usize,
    seconds: u64,
}

const USAGE: &str = "usage: compare SEED COUNT or compare --container FILE, \
    then --pose PROGRAM, --save DIRECTORY, --workers N, --seconds N, \
    and last -- PROGRAM ARGUMENTS";

fn options() -> Result<Options, String> {
    let mut options = Options {
        seed: 0,
        count: 0,
        container: None,
        pose: vec!["crates/pose/out/pose".to_string()],
        save: PathBuf::from("oracle/target/differences"),
        workers: 2,
        seconds: 60,
    };
    let mut plain = Vec::new();
    let mut arguments = std::env::args().skip(1);
    let number = |text: &str| {
        text.parse::<u64>()
            .map_err(|_| format!("not a number: {text}"))
    };
    while let Some(argument) = arguments.next() {
        let mut value = || arguments.next().ok_or(USAGE.to_string());
        match argument.as_str() {
            "--pose" => options.pose = vec![value()?],
            "--" => {
                options.pose = std::iter::once(value()?).chain(arguments).collect();
                break;
            }
            "--save" => options.save = PathBuf::from(value()?),
            "--container" => options.container = Some(PathBuf::from(value()?)),
            "--workers" => options.workers = number(&value()?)?.max(1) as usize,
            "--seconds" => options.seconds = number(&value()?)?,
            _ => plain.push(number(&argument)?),
        }
    }
    match (plain[..].as_ref(), &options.container) {
        ([seed, count], None) => (options.seed, options.count) = (*seed, *count),
        ([], Some(_)) => {}
        _ => return Err(USAGE.to_string()),
    }
    Ok(options)
}

/// A running program and when it began, for the one that watches the time.
type Watched = Arc<Mutex<Option<(Child, Instant)>>>;

/// What the program prints for a plan, and whether it ended well.
fn run_program(program: &[String], plan: &[u8], watched: &Watched) -> io::Result<(Vec<u8>, bool)> {
    let mut child = Command::new(&program[0])
        .args(&program[1..])
        .stdin(Stdio::piped())
        .stdout(Stdio::piped())
        .stderr(Stdio::null())
        .spawn()?;
    let mut input = child.stdin.take().expect("piped");
    let mut output = child.stdout.take().expect("piped");
    *watched.lock().expect("no panic") = Some((child, Instant::now()));
    // A program may stop reading once the plan is decided. What it prints fits into
    // the pipe, so writing first cannot block both.
    match input.write_all(plan) {
        Err(error) if error.kind() != ErrorKind::BrokenPipe => return Err(error),
        _ => drop(input),
    }
    let mut printed = Vec::new();
    output.read_to_end(&mut printed)?;
    let (mut child, _) = watched.lock().expect("no panic").take().expect("put there");
    let status = child.wait()?;
    Ok((printed, status.success()))
}

struct Difference {
    name: String,
    plan: Vec<u8>,
    expected: Vec<u8>,
    printed: Vec<u8>,
}

fn save(directory: &Path, difference: &Difference) -> io::Result<()> {
    std::fs::create_dir_all(directory)?;
    let path = directory.join(&difference.name);
    std::fs::write(path.with_extension("plan"), &difference.plan)?;
    std::fs::write(path.with_extension("out"), &difference.expected)?;
    std::fs::write(path.with_extension("printed"), &difference.printed)
}

fn run(options: &Options) -> io::Result<u64> {
    let file = match &options.container {
        Some(path) => std::fs::read(path)?,
        None => Vec::new(),
    };
    let plans = container::split(&file)?;
    let count = if options.container.is_some() {
        plans.len() as u64
    } else {
        options.count
    };
    let next = AtomicU64::new(0);
    let done = AtomicBool::new(false);
    let differences = AtomicU64::new(0);
    let census = Mutex::new(Census::default());
    let failure: Mutex<Option<io::Error>> = Mutex::new(None);
    let watched: Vec<Watched> = (0..options.workers).map(|_| Watched::default()).collect();
    let work = |slot: &Watched| -> io::Result<()> {
        let mut room = Room::default();
        loop {
            let index = next.fetch_add(1, Ordering::Relaxed);
            if index >= count {
                return Ok(());
            }
            let (family, topology, plan) = if options.container.is_some() {
                ("container", "container", plans[index as usize].to_vec())
            } else {
                let scene = scenes::scene(options.seed, index, &mut room);
                (scene.family, scene.topology, scene.plan)
            };
            let (answer, bodies) = pose(&plan, &mut room);
            let mut expected = Vec::new();
            report(answer, &bodies, &mut expected);
            let (printed, well) = run_program(&options.pose, &plan, slot)?;
            census
                .lock()
                .expect("no panic")
                .add(family, topology, &plan, answer);
            if printed != expected || !well {
                let before = differences.fetch_add(1, Ordering::Relaxed);
                let name = format!("{}-{index:06}-{family}-{topology}", options.seed);
                let first = |text: &[u8]| {
                    let line = text.split(|byte| *byte == b'\n').next().unwrap_or(b"");
                    String::from_utf8_lossy(line).into_owned()
                };
                if before < 20 {
                    let end = if well { "" } else { ", which did not end well" };
                    println!(
                        "differs: {name}: oracle `{}`, program `{}`{end}",
                        first(&expected),
                        first(&printed)
                    );
                }
                save(
                    &options.save,
                    &Difference {
                        name,
                        plan,
                        expected,
                        printed,
                    },
                )?;
            }
        }
    };
    thread::scope(|scope| {
        scope.spawn(|| {
            while !done.load(Ordering::Relaxed) {
                thread::sleep(Duration::from_millis(200));
                for slot in &watched {
                    let mut slot = slot.lock().expect("no panic");
                    if let Some((child, began)) = slot.as_mut()
                        && began.elapsed().as_secs() >= options.seconds
                    {
                        // It may have ended by itself meanwhile.
                        let _ = child.kill();
                    }
                }
            }
        });
        let handles: Vec<_> = watched
            .iter()
            .map(|slot| scope.spawn(|| work(slot)))
            .collect();
        for handle in handles {
            if let Err(error) = handle.join().expect("no panic") {
                *failure.lock().expect("no panic") = Some(error);
            }
        }
        done.store(true, Ordering::Relaxed);
    });
    if let Some(error) = failure.into_inner().expect("no panic") {
        return Err(error);
    }
    print!("{}", census.into_inner().expect("no panic"));
    let differences = differences.into_inner();
    if differences > 0 {
        println!("differing plans are in {}", options.save.display());
    }
    println!("{count} plans, {differences} differences");
    Ok(differences)
}

fn main() -> ExitCode {
    let options = match options() {
        Ok(options) => options,
        Err(message) => {
            eprintln!("compare: {message}");
            return ExitCode::FAILURE;
        }
    };
    match run(&options) {
        Ok(0) => ExitCode::SUCCESS,
        Ok(_) => ExitCode::FAILURE,
        Err(error) => {
            eprintln!(
                "compare: {error} (the program is {})",
                options.pose.join(" ")
            );
            ExitCode::FAILURE
        }
    }
}
