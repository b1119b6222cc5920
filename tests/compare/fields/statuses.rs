//! Which statuses random runs have reached.

use super::call::KINDS;
use super::refusals::{REACHABLE, TOGETHER};

/// How often each was reached.
pub struct Statuses {
    /// By kind of call and status.
    alone: [[u64; 20]; 3],
    /// By kind of call and two refusals that apply at once, the smaller
    /// first.
    together: [[[u64; 20]; 20]; 3],
}

impl Statuses {
    pub fn new() -> Statuses {
        Statuses { alone: [[0; 20]; 3], together: [[[0; 20]; 20]; 3] }
    }

    /// Notes a call and the refusals that apply, the smallest first.
    pub fn note(&mut self, kind: usize, applying: &[u8]) {
        let status = applying.first().copied().unwrap_or(0);
        self.alone[kind][status as usize] += 1;
        for (place, &smaller) in applying.iter().enumerate() {
            for &larger in &applying[place + 1..] {
                self.together[kind][smaller as usize][larger as usize] += 1;
            }
        }
    }

    pub fn print(&self) {
        for (kind, name) in KINDS.iter().enumerate() {
            let reached: Vec<String> = REACHABLE[kind]
                .iter()
                .map(|&status| format!("{} ({} times)", status, self.alone[kind][status as usize]))
                .collect();
            println!("{}: status {}", name, reached.join(", "));
        }
    }

    /// All that can be reached, and how often it was.
    pub fn all(&self) -> Vec<(String, u64)> {
        let mut all = Vec::new();
        for (kind, name) in KINDS.iter().enumerate() {
            for &status in REACHABLE[kind] {
                let times = self.alone[kind][status as usize];
                all.push((format!("{}: status {}", name, status), times));
            }
            for &(smaller, larger) in TOGETHER[kind] {
                let times = self.together[kind][smaller as usize][larger as usize];
                all.push((format!("{}: refusals {} and {} at once", name, smaller, larger), times));
            }
        }
        all
    }
}
