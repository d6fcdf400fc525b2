//! Reads the two texts. Wishes are passed over, and so are faults that change no answer.

use pubgrub::{Map, VersionSet};
use smallvec::{smallvec, SmallVec};

use crate::numbers::{Numbers, END};
use crate::provider::{Listed, Package, Rule, Version, ABSENT};

/// A status, and what is printed.
pub type Stop = (i32, String);

fn fault(line: &str) -> Stop {
    (2, format!("fault: {line}"))
}

#[derive(Default)]
struct Reader {
    packages: Vec<Package>,
    rules: Vec<Rule>,
    places: Map<&'static str, usize>,
    /// The package of the last `version` line.
    last: Option<usize>,
}

impl Reader {
    fn place(&mut self, name: &'static str) -> usize {
        let Reader { packages, places, .. } = self;
        *places.entry(name).or_insert_with(|| {
            packages.push(Package { name, ..Package::default() });
            packages.len() - 1
        })
    }

    /// The SPEC at the start of some words, and the words after it.
    fn spec<'w>(&mut self, words: &'w [&'static str], line: &str) -> Result<(usize, (u64, u64), &'w [&'static str]), Stop> {
        let [name, rest @ ..] = words else {
            return Err(fault(line));
        };
        let package = self.place(name);
        let [span, after @ ..] = rest else {
            return Ok((package, (1, END), rest));
        };
        if !span.starts_with(|c: char| c.is_ascii_digit()) {
            return Ok((package, (1, END), rest));
        }
        let (low, high) = span.split_once("..").unwrap_or((span, ""));
        let low = number(low, line)?;
        let high = if high.is_empty() { low + 1 } else { number(high, line)? };
        Ok((package, (low, high), after))
    }

    /// What a `needs` or a `limits` line allows.
    fn rule(&mut self, words: &[&'static str], line: &str) -> Result<Rule, Stop> {
        let (package, run, mut rest) = self.spec(&words[1..], line)?;
        let mut runs = SmallVec::from_slice(&[run]);
        if words[0] == "limits" {
            runs.push((ABSENT, ABSENT + 1));
        }
        while let ["|", more @ ..] = rest {
            let (other, run, after) = self.spec(more, line)?;
            if other != package {
                return Err((3, format!("no word: {line}")));
            }
            runs.push(run);
            rest = after;
        }
        if rest.is_empty() { Ok((package, Numbers::of(runs))) } else { Err((3, format!("no word: {line}"))) }
    }

    fn version(&mut self, line: &str) -> Result<(usize, u64, &mut Version), Stop> {
        let last = self.last.and_then(|package| Some((package, self.packages[package].versions.last_mut()?)));
        let (package, (number, version)) = last.ok_or_else(|| fault(line))?;
        Ok((package, *number, version))
    }

    fn catalogue_line(&mut self, line: &'static str, marks: &mut Vec<(&'static str, usize, u64)>) -> Result<(), Stop> {
        let words: SmallVec<[&'static str; 8]> = line.split(' ').collect();
        match words.as_slice() {
            ["version", name, v] => {
                let package = self.place(name);
                let version = Version { rules: self.rules.len()..self.rules.len(), is_barred: false };
                self.packages[package].versions.push((number(v, line)?, version));
                self.last = Some(package);
            }
            ["needs" | "limits", ..] => {
                let (other, allowed) = self.rule(&words, line)?;
                let (package, own, version) = self.version(line)?;
                if other == package {
                    version.is_barred |= !allowed.contains(&own);
                } else {
                    version.rules.end += 1;
                    self.rules.push((other, allowed));
                }
            }
            ["unknown", _] => self.version(line)?.2.is_barred = true,
            [mark @ ("lock" | "favour"), name, v] | [mark @ "exclude", name, v, _] => {
                let package = self.place(name);
                marks.push((mark, package, number(v, line)?));
            }
            _ => return Err(fault(line)),
        }
        Ok(())
    }

    fn mark(&mut self, (mark, package, number): (&str, usize, u64)) -> Result<(), Stop> {
        let it = &mut self.packages[package];
        match (mark, it.versions.binary_search_by_key(&number, |version| version.0)) {
            ("lock", Ok(_)) => it.lock = Some(number),
            ("favour", Ok(_)) => it.favour = Some(number),
            (_, Ok(place)) => it.versions[place].1.is_barred = true,
            (_, Err(_)) => return Err(fault(mark)),
        }
        Ok(())
    }
}

/// A version's number here.
fn number(word: &str, line: &str) -> Result<u64, Stop> {
    word.parse::<u32>().map(|number| u64::from(number) + 1).map_err(|_| fault(line))
}

fn lines(text: &'static str) -> impl Iterator<Item = &'static str> {
    text.split('\n').filter(|line| !line.is_empty() && !line.starts_with('#'))
}

pub fn listed(catalogue: &'static str, request: &'static str) -> Result<Listed, Stop> {
    let (mut reader, mut marks) = (Reader::default(), Vec::new());
    for line in lines(catalogue) {
        reader.catalogue_line(line, &mut marks)?;
    }
    let from = reader.rules.len();
    for line in lines(request).filter(|line| !line.starts_with("wish ")) {
        let words: Vec<&'static str> = line.split(' ').collect();
        let rule = reader.rule(&words, line)?;
        reader.rules.push(rule);
    }
    let root = Version { rules: from..reader.rules.len(), is_barred: false };
    for package in &mut reader.packages {
        package.versions.sort_by_key(|version| version.0);
    }
    for mark in marks {
        reader.mark(mark)?;
    }
    let Reader { mut packages, rules, .. } = reader;
    packages.push(Package { name: "the request", versions: smallvec![(ABSENT, root)], ..Package::default() });
    Ok(Listed { packages, rules })
}
