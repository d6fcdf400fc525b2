//! The packages, as PubGrub asks for them. It can't limit a package that nobody needs: so each has a version `ABSENT` below its own, which
//! needs nothing and is decided last. Version `v` of a text is the number `v + 1`.

use std::cmp::Reverse;
use std::convert::Infallible;
use std::ops::Range;

use pubgrub::{Dependencies, DependencyProvider, Map, PackageResolutionStatistics, VersionSet};
use smallvec::SmallVec;

use crate::numbers::Numbers;

pub const ABSENT: u64 = 0;

/// A package by its place, with the numbers that a line allows.
pub type Rule = (usize, Numbers);

#[derive(Default)]
pub struct Package {
    pub name: &'static str,
    /// Rising.
    pub versions: SmallVec<[(u64, Version); 1]>,
    pub lock: Option<u64>,
    pub favour: Option<u64>,
}

#[derive(Default)]
pub struct Version {
    /// Where its rules are.
    pub rules: Range<usize>,
    pub is_barred: bool,
}

/// The last package stands for the request.
pub struct Listed {
    pub packages: Vec<Package>,
    pub rules: Vec<Rule>,
}

impl Listed {
    pub fn root(&self) -> usize {
        self.packages.len() - 1
    }

    fn within(&self, package: usize, run: (u64, u64)) -> &[(u64, Version)] {
        let versions = &self.packages[package].versions;
        let place = |number| versions.partition_point(|version| version.0 < number);
        &versions[place(run.0)..place(run.1)]
    }

    fn count(&self, package: usize, range: &Numbers) -> usize {
        range.runs().iter().map(|&run| self.within(package, run).len()).sum()
    }
}

impl DependencyProvider for Listed {
    type P = usize;
    type V = u64;
    type VS = Numbers;
    type Priority = (bool, u32, Reverse<usize>);
    type M = String;
    type Err = Infallible;

    /// What must be there first; then, as the crate's own provider, more conflicts, then fewer versions.
    fn prioritize(&self, package: &usize, range: &Numbers, seen: &PackageResolutionStatistics) -> Self::Priority {
        let count = self.count(*package, range);
        let conflicts = if count == 0 { u32::MAX } else { seen.conflict_count() };
        (!range.contains(&ABSENT), conflicts, Reverse(count))
    }

    fn choose_version(&self, package: &usize, range: &Numbers) -> Result<Option<u64>, Infallible> {
        let it = &self.packages[*package];
        if range.contains(&ABSENT) {
            return Ok(Some(ABSENT));
        }
        if let Some(lock) = it.lock {
            return Ok(Some(lock).filter(|number| range.contains(number)));
        }
        if let Some(favour) = it.favour.filter(|number| range.contains(number)) {
            return Ok(Some(favour));
        }
        let newest = |run: &(u64, u64)| self.within(*package, *run).last().map(|version| version.0);
        Ok(range.runs().iter().rev().find_map(newest))
    }

    fn get_dependencies(&self, package: &usize, number: &u64) -> Result<Dependencies<usize, Numbers, String>, Infallible> {
        let versions = &self.packages[*package].versions;
        let rules = match versions.binary_search_by_key(number, |version| version.0) {
            Ok(place) if versions[place].1.is_barred => return Ok(Dependencies::Unavailable("it is barred".to_string())),
            Ok(place) => &self.rules[versions[place].1.rules.clone()],
            Err(_) => &[],
        };
        let mut needs: Map<usize, Numbers> = Map::default();
        for (other, allowed) in rules {
            needs.entry(*other).and_modify(|before| *before = before.intersection(allowed)).or_insert_with(|| allowed.clone());
        }
        Ok(Dependencies::Available(needs))
    }
}
