//! `play FOLDER` plays every list of calls in the folder and in those within
//! it, and says in a line each how it went.

use harness::lists;
use std::path::{Path, PathBuf};
use std::process::ExitCode;

fn main() -> ExitCode {
    let Some(folder) = std::env::args_os().nth(1) else {
        eprintln!("usage: play FOLDER");
        return ExitCode::from(2);
    };
    let (passed, failed) = match lists::find(Path::new(&folder)) {
        Ok(paths) if !paths.is_empty() => play(&paths),
        Ok(_) => {
            println!("FAILED: no lists");
            (0, 1)
        }
        Err(what) => {
            println!("FAILED {what}");
            (0, 1)
        }
    };
    println!("{passed} passed, {failed} failed");
    match failed {
        0 => ExitCode::SUCCESS,
        _ => ExitCode::FAILURE,
    }
}

/// How many lists passed, and how many failed.
fn play(paths: &[PathBuf]) -> (usize, usize) {
    let mut passed = 0;
    for path in paths {
        let name = path.display();
        match lists::play(path) {
            Ok(asked) => {
                println!("ok {name}: {asked} answers");
                passed += 1;
            }
            Err(what) => println!("FAILED {name}: {what}"),
        }
    }
    (passed, paths.len() - passed)
}
