//! `solve-with-pubgrub CATALOGUE REQUEST`: solves with PubGrub, as uv has it. Prints `install` and the versions, or `refused` and
//! PubGrub's report. The status is 0 or 1, 2 where a text can't be read, and 3 at a line for which PubGrub has no word.

mod numbers;
mod provider;
mod read;

use provider::{Listed, ABSENT};
use pubgrub::{resolve, DefaultStringReporter, PubGrubError, Reporter};

fn answer(listed: &Listed) -> (i32, String) {
    match resolve(listed, listed.root(), ABSENT) {
        Ok(chosen) => {
            let mut lines = vec!["install".to_string()];
            for (package, number) in chosen {
                if package != listed.root() && number != ABSENT {
                    lines.push(format!("{}={}", listed.packages[package].name, number - 1));
                }
            }
            (0, lines.join("\n"))
        }
        Err(PubGrubError::NoSolution(tree)) => (1, format!("refused\n{}", DefaultStringReporter::report(&tree))),
        Err(other) => (2, other.to_string()),
    }
}

fn main() {
    let words: Vec<String> = std::env::args().skip(1).collect();
    // What is read and made is kept to the end: nothing is released.
    let texts: Vec<&'static str> = words.iter().filter_map(|path| Some(&*std::fs::read_to_string(path).ok()?.leak())).collect();
    let (status, text) = match texts.as_slice() {
        [catalogue, request] => match read::listed(catalogue, request) {
            Ok(listed) => answer(Box::leak(Box::new(listed))),
            Err(stop) => stop,
        },
        _ => (2, "usage: solve-with-pubgrub CATALOGUE REQUEST".to_string()),
    };
    println!("{text}");
    std::process::exit(status);
}
