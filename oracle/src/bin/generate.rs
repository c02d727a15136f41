//! Writes random plans: `generate SEED COUNT FILE` into one container,
//! `generate SEED COUNT --dir DIRECTORY` into a file each, and
//! `generate --census SEED COUNT` only counts them.

use kapitsa_core::plan::{Room, pose};
use oracle::{census::Census, container, scenes};
use std::io::{self, Write};
use std::path::Path;
use std::process::ExitCode;

fn number(text: &str) -> io::Result<u64> {
    text.parse()
        .map_err(|_| io::Error::new(io::ErrorKind::InvalidInput, format!("not a number: {text}")))
}

fn run() -> io::Result<()> {
    let arguments: Vec<String> = std::env::args().skip(1).collect();
    let mut room = Room::default();
    match arguments.iter().map(String::as_str).collect::<Vec<_>>()[..] {
        ["--census", seed, count] => {
            let seed = number(seed)?;
            let mut census = Census::default();
            for index in 0..number(count)? {
                let scene = scenes::scene(seed, index, &mut room);
                let (answer, _) = pose(&scene.plan, &mut room);
                census.add(scene.family, scene.topology, &scene.plan, answer);
            }
            io::stdout().lock().write_all(census.to_string().as_bytes())
        }
        [seed, count, "--dir", directory] => {
            let seed = number(seed)?;
            std::fs::create_dir_all(directory)?;
            for index in 0..number(count)? {
                let scene = scenes::scene(seed, index, &mut room);
                let name = format!("{seed}-{index:06}-{}-{}.plan", scene.family, scene.topology);
                std::fs::write(Path::new(directory).join(name), &scene.plan)?;
            }
            Ok(())
        }
        [seed, count, path] => {
            let seed = number(seed)?;
            let mut out = Vec::new();
            for index in 0..number(count)? {
                container::push(&mut out, &scenes::scene(seed, index, &mut room).plan);
            }
            std::fs::write(path, &out)
        }
        _ => Err(io::Error::new(
            io::ErrorKind::InvalidInput,
            "usage: generate SEED COUNT FILE, generate SEED COUNT --dir DIRECTORY, \
             or generate --census SEED COUNT",
        )),
    }
}

fn main() -> ExitCode {
    match run() {
        Ok(()) => ExitCode::SUCCESS,
        Err(error) => {
            eprintln!("generate: {error}");
            ExitCode::FAILURE
        }
    }
}
