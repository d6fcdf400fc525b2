//! Answers records of texts, for checks/embedding.py: `solve N N` or `judge N N N` and the texts on standard input; a line
//! `ENDING LENGTH` and the text on standard output, as checks/embedding.c does. With the word `budgets` the least budget with which
//! each pair is answered.

use resolve::{judge, solve, solve_within, Answer, Lack, Verdict};
use std::io::{BufRead, Read, Write};

fn lack_ending(lack: Lack) -> u32 {
    match lack {
        Lack::TooLong => 4,
        Lack::Memory => 5,
        Lack::Ids => 6,
        Lack::GivenUp => 8,
    }
}

fn solved(texts: &[Vec<u8>]) -> (u32, Vec<u8>) {
    match solve(&texts[0], &texts[1]) {
        Ok(Answer::Installed(text)) => (0, text),
        Ok(Answer::Refused(text)) => (1, text),
        Ok(Answer::Faulty(text)) => (2, text),
        Err(lack) => (lack_ending(lack), Vec::new()),
    }
}

fn judged(texts: &[Vec<u8>]) -> (u32, Vec<u8>) {
    match judge(&texts[0], &texts[1], &texts[2]) {
        Ok(Verdict::Yes) => (0, b"yes\n".to_vec()),
        Ok(Verdict::No(line)) => (1, format!("no line {line}\n").into_bytes()),
        Ok(Verdict::Faulty(text)) => (2, text),
        Err(lack) => (lack_ending(lack), Vec::new()),
    }
}

/// The least budget with which a pair is answered.
fn budget_for(texts: &[Vec<u8>]) -> u64 {
    (0..).find(|budget| solve_within(*budget, &texts[0], &texts[1]) != Err(Lack::GivenUp)).expect("a budget that is enough")
}

fn main() -> std::io::Result<()> {
    let budgets = std::env::args().nth(1).as_deref() == Some("budgets");
    let mut input = std::io::stdin().lock();
    let mut output = std::io::stdout().lock();
    let mut line = String::new();
    while input.read_line(&mut line)? > 0 {
        let words: Vec<&str> = line.split_whitespace().collect();
        let solves = words[0] == "solve";
        let mut texts = Vec::new();
        for word in &words[1..] {
            let mut text = vec![0; word.parse().expect("a length")];
            input.read_exact(&mut text)?;
            texts.push(text);
        }
        line = String::new();
        if budgets {
            writeln!(output, "{}", budget_for(&texts))?;
            continue;
        }
        let (ending, text) = if solves { solved(&texts) } else { judged(&texts) };
        writeln!(output, "{ending} {}", text.len())?;
        output.write_all(&text)?;
    }
    Ok(())
}
