//! Sets of record numbers as the one proper list that names them.

pub type Interval = (u32, u32);

#[derive(Clone, Debug, Default, PartialEq, Eq)]
pub struct Set {
    intervals: Vec<Interval>,
}

impl Set {
    /// The set that any intervals name, in any order, overlapping or not.
    pub fn of(mut intervals: Vec<Interval>) -> Set {
        intervals.sort_unstable();
        let mut merged: Vec<Interval> = Vec::new();
        for (l, u) in intervals {
            match merged.last_mut() {
                Some(last) if l <= last.1 + 1 => last.1 = last.1.max(u),
                _ => merged.push((l, u)),
            }
        }
        Set { intervals: merged }
    }

    pub fn of_numbers(numbers: &[u32]) -> Set {
        Set::of(numbers.iter().map(|&n| (n, n)).collect())
    }

    pub fn intervals(&self) -> &[Interval] {
        &self.intervals
    }

    pub fn records(&self) -> u64 {
        self.intervals.iter().map(|&(l, u)| u64::from(u - l) + 1).sum()
    }

    pub fn cells(&self) -> Vec<u32> {
        self.intervals.iter().flat_map(|&(l, u)| [l, u]).collect()
    }

    pub fn numbers(&self) -> Vec<u32> {
        self.intervals.iter().flat_map(|&(l, u)| l..=u).collect()
    }

    pub fn or(&self, other: &Set) -> Set {
        Set::of([&self.intervals[..], &other.intervals[..]].concat())
    }

    pub fn and(&self, other: &Set) -> Set {
        let (mut met, mut i, mut j) = (Vec::new(), 0, 0);
        while i < self.intervals.len() && j < other.intervals.len() {
            let ((a, b), (c, d)) = (self.intervals[i], other.intervals[j]);
            if a.max(c) <= b.min(d) {
                met.push((a.max(c), b.min(d)));
            }
            if b < d {
                i += 1;
            } else {
                j += 1;
            }
        }
        Set { intervals: met }
    }

    pub fn not(&self, other: &Set) -> Set {
        self.and(&other.complement())
    }

    /// The numbers from 0 to 2^32 - 2 that are not in; 0 and those above the limit never meet a list.
    fn complement(&self) -> Set {
        let (mut gaps, mut next) = (Vec::new(), 0);
        for &(l, u) in &self.intervals {
            if next < l {
                gaps.push((next, l - 1));
            }
            next = u + 1;
        }
        gaps.push((next, u32::MAX - 1));
        Set { intervals: gaps }
    }
}
