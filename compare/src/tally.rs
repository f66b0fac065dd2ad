//! Counts of cases, and the differences found.

pub use oracle::progress::grouped;

use std::fmt;

/// So many differences are printed, the shortest ones.
const MOST_PRINTED: usize = 20;

/// The largest number that a refusal has.
const LARGEST_NUMBER: usize = 18;

/// Differences found, as text.
#[derive(Default)]
pub struct Differences {
    pub count: usize,
    shortest: Vec<String>,
}

impl Differences {
    pub fn push(&mut self, text: String) {
        self.add(Differences {
            count: 1,
            shortest: vec![text],
        });
    }

    pub fn add(&mut self, other: Differences) {
        self.count += other.count;
        self.shortest.extend(other.shortest);
        self.shortest.sort_by_key(String::len);
        self.shortest.truncate(MOST_PRINTED);
    }

    pub fn print(&self) {
        for text in &self.shortest {
            println!("{text}");
        }
    }
}

#[derive(Default)]
pub struct Tally {
    pub cases: usize,
    /// How many were accepted, and how many refused by each question.
    by_number: [usize; LARGEST_NUMBER + 1],
    pub differences: Differences,
}

impl Tally {
    pub fn count(&mut self, number: usize, difference: Option<String>) {
        self.cases += 1;
        self.by_number[number] += 1;
        if let Some(text) = difference {
            self.differences.push(text);
        }
    }

    pub fn add(&mut self, other: Tally) {
        self.cases += other.cases;
        for (count, more) in self.by_number.iter_mut().zip(other.by_number) {
            *count += more;
        }
        self.differences.add(other.differences);
    }

    /// How many were accepted and how many refused, by number.
    pub fn numbers(&self) -> String {
        let mut text = format!("accepted {}", grouped(self.by_number[0]));
        for (number, &count) in self.by_number.iter().enumerate().skip(1) {
            if count > 0 {
                text += &format!(", refused {number}: {}", grouped(count));
            }
        }
        text
    }
}

impl fmt::Display for Tally {
    fn fmt(&self, f: &mut fmt::Formatter<'_>) -> fmt::Result {
        let (cases, differ) = (grouped(self.cases), grouped(self.differences.count));
        write!(f, "{cases} cases, {differ} differ")
    }
}
