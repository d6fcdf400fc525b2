//! Sets of version numbers: runs, so that neighbours join, as those of whole numbers can.

use std::fmt;

use pubgrub::VersionSet;
use smallvec::SmallVec;

/// Above each number.
pub const END: u64 = u64::MAX;

/// Rising runs, each from its first number to below its second one; no two touch.
#[derive(Clone, Debug, PartialEq, Eq)]
pub struct Numbers(SmallVec<[(u64, u64); 2]>);

impl Numbers {
    /// The union of runs in any order.
    pub fn of(mut runs: SmallVec<[(u64, u64); 2]>) -> Numbers {
        runs.sort_unstable();
        let mut joined: SmallVec<[(u64, u64); 2]> = SmallVec::new();
        for (low, high) in runs {
            match joined.last_mut() {
                Some(last) if low <= last.1 => last.1 = last.1.max(high),
                _ => joined.push((low, high)),
            }
        }
        Numbers(joined)
    }

    pub fn runs(&self) -> &[(u64, u64)] {
        &self.0
    }
}

impl VersionSet for Numbers {
    type V = u64;

    fn empty() -> Numbers {
        Numbers(SmallVec::new())
    }

    fn singleton(number: u64) -> Numbers {
        Numbers(SmallVec::from_slice(&[(number, number + 1)]))
    }

    fn complement(&self) -> Numbers {
        let mut runs = SmallVec::new();
        let mut from = 0;
        for &(low, high) in &self.0 {
            if from < low {
                runs.push((from, low));
            }
            from = high;
        }
        if from < END {
            runs.push((from, END));
        }
        Numbers(runs)
    }

    fn intersection(&self, other: &Numbers) -> Numbers {
        let (mut runs, mut i, mut j) = (SmallVec::new(), 0, 0);
        while i < self.0.len() && j < other.0.len() {
            let (low, high) = (self.0[i].0.max(other.0[j].0), self.0[i].1.min(other.0[j].1));
            if low < high {
                runs.push((low, high));
            }
            if self.0[i].1 <= other.0[j].1 {
                i += 1;
            } else {
                j += 1;
            }
        }
        Numbers(runs)
    }

    fn contains(&self, number: &u64) -> bool {
        let after = self.0.partition_point(|run| run.0 <= *number);
        after > 0 && *number < self.0[after - 1].1
    }
}

impl fmt::Display for Numbers {
    fn fmt(&self, f: &mut fmt::Formatter<'_>) -> fmt::Result {
        let runs: Vec<String> = self.0.iter().map(|(low, high)| format!("{low}..{high}")).collect();
        f.write_str(&runs.join(" | "))
    }
}
