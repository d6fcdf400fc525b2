//! Prints what to install for a catalogue and a request, and what the judge says of it: as `bindings/c/example.c`.

use resolve::{Answer, judge, solve};
use std::io::Write;
use std::process::ExitCode;

fn main() -> ExitCode {
    let words: Vec<std::ffi::OsString> = std::env::args_os().skip(1).collect();
    let [catalogue, request] = words.as_slice() else {
        eprintln!("usage: solve CATALOGUE REQUEST");
        return ExitCode::from(2);
    };
    let (catalogue, request) = match (std::fs::read(catalogue), std::fs::read(request)) {
        (Ok(catalogue), Ok(request)) => (catalogue, request),
        (Err(error), _) | (_, Err(error)) => {
            eprintln!("{error}");
            return ExitCode::from(2);
        }
    };
    let answer = match solve(&catalogue, &request) {
        Ok(answer) => answer,
        Err(lack) => {
            eprintln!("{lack}");
            return ExitCode::from(2);
        }
    };
    if std::io::stdout().write_all(answer.text()).is_err() {
        return ExitCode::from(2);
    }
    match &answer {
        Answer::Faulty(_) => ExitCode::from(2),
        Answer::Installed(report) | Answer::Refused(report) => {
            eprintln!("the judge says {:?}", judge(&catalogue, &request, report));
            ExitCode::from(u8::from(matches!(answer, Answer::Refused(_))))
        }
    }
}
