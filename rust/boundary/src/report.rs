//! What was counted, and the cases that failed.

use std::collections::BTreeMap;

/// So many failures are printed.
const SHOWN: usize = 20;

#[derive(Default)]
pub struct Report {
    passed: u64,
    failed: u64,
    counts: BTreeMap<String, u64>,
}

impl Report {
    /// Counts a check under a name.
    pub fn check(&mut self, name: &str, result: Result<(), String>) {
        match result {
            Ok(()) => {
                self.passed += 1;
                self.count(name);
            }
            Err(case) => {
                self.failed += 1;
                if self.failed <= SHOWN as u64 {
                    println!("FAILED: {name}: {case}");
                }
            }
        }
    }

    /// Counts something that came up.
    pub fn count(&mut self, name: &str) {
        match self.counts.get_mut(name) {
            Some(count) => *count += 1,
            None => {
                self.counts.insert(name.to_owned(), 1);
            }
        }
    }

    /// What must have come up.
    pub fn demand(&mut self, names: &[&str]) {
        for name in names {
            let came_up = self.counts.contains_key(*name);
            let result = if came_up {
                Ok(())
            } else {
                Err("never came up".to_owned())
            };
            if result.is_err() {
                self.check(name, result);
            }
        }
    }

    /// Prints the counts and, last, 'N passed, M failed'. True if there is no failure and something passed.
    pub fn finish(self) -> bool {
        if self.failed > SHOWN as u64 {
            println!("and {} more", self.failed - SHOWN as u64);
        }
        for (name, count) in &self.counts {
            println!("{name}: {count}");
        }
        println!("{} passed, {} failed", self.passed, self.failed);
        self.failed == 0 && self.passed > 0
    }
}
