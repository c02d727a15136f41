//! Prints what `pose` prints for the plan on standard input; with `--batch FILE`
//! for every plan of a container, one answer after the other.

use kapitsa_core::plan::{Room, answer_of};
use oracle::container;
use std::io::{self, Read, Write};
use std::process::ExitCode;

fn run() -> io::Result<()> {
    let arguments: Vec<String> = std::env::args().skip(1).collect();
    let mut room = Room::default();
    let mut out = Vec::new();
    match arguments.iter().map(String::as_str).collect::<Vec<_>>()[..] {
        [] => {
            let mut file = Vec::new();
            io::stdin().lock().read_to_end(&mut file)?;
            out = answer_of(&file, &mut room);
        }
        ["--batch", path] => {
            let file = std::fs::read(path)?;
            for plan in container::split(&file)? {
                out.extend_from_slice(&answer_of(plan, &mut room));
            }
        }
        _ => {
            return Err(io::Error::new(
                io::ErrorKind::InvalidInput,
                "usage: oracle-pose < PLAN, or oracle-pose --batch CONTAINER",
            ));
        }
    }
    io::stdout().lock().write_all(&out)
}

fn main() -> ExitCode {
    match run() {
        Ok(()) => ExitCode::SUCCESS,
        Err(error) => {
            eprintln!("oracle-pose: {error}");
            ExitCode::FAILURE
        }
    }
}
