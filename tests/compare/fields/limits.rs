//! Which lengths at and past their limits random runs have reached.

use super::call::KINDS;
use super::moment::Moment;
use super::refusals::in_range;
use super::sizes::EDGES;
use super::subject::NUMBERS;

/// How often each was reached.
pub struct Limits {
    /// Of starts and keys that are not refused, by how many places were
    /// lent for the answer; the last is for all that are more than enough.
    lent: [[u64; NUMBERS + 2]; 2],
    /// Widths and maxima at the edges, of keys: accepted, or refused only
    /// because this number is out of range.
    widths: [u64; EDGES.len()],
    maxima: [u64; EDGES.len()],
    /// The bytes of defaults that became the text.
    bytes: [u64; 256],
}

impl Limits {
    pub fn new() -> Limits {
        Limits {
            lent: [[0; NUMBERS + 2]; 2],
            widths: [0; EDGES.len()],
            maxima: [0; EDGES.len()],
            bytes: [0; 256],
        }
    }

    pub fn see(&mut self, now: &Moment) {
        let (kind, status, field) = (now.step.call.kind(), now.status(), now.field);
        if status == 0 && kind < 2 {
            self.lent[kind][now.lent().min(NUMBERS + 1)] += 1;
        }
        if kind == 0 && status == 0 && now.lent() >= NUMBERS {
            for &byte in &field.default {
                self.bytes[byte as usize] += 1;
            }
        }
        if kind == 1 && now.lent() >= NUMBERS && only_out_of_range(now) {
            note_edge(&mut self.widths, field.width, in_range(field.maximum));
            note_edge(&mut self.maxima, field.maximum, in_range(field.width));
        }
    }

    /// All that can be reached, and how often it was.
    pub fn all(&self) -> Vec<(String, u64)> {
        let mut all = Vec::new();
        for (kind, counts) in KINDS.iter().zip(self.lent) {
            for (places, times) in counts.iter().enumerate() {
                all.push((format!("{}: an answer of {} places", kind, places), *times));
            }
        }
        for (place, size) in EDGES.iter().enumerate() {
            all.push((format!("keys: width {}", size), self.widths[place]));
            all.push((format!("keys: maximum {}", size), self.maxima[place]));
        }
        for (byte, times) in self.bytes.iter().enumerate() {
            all.push((format!("start: byte {:02x} in a default", byte), *times));
        }
        all
    }
}

/// Refused for no other reason, if at all. No buffer is as long as the
/// largest number.
fn only_out_of_range(now: &Moment) -> bool {
    let excused = |refusal: &u8| *refusal == 12 && now.field.maximum == usize::MAX;
    now.applying.iter().all(|refusal| *refusal == 11 || excused(refusal))
}

fn note_edge(counts: &mut [u64], size: usize, other_in_range: bool) {
    if let Some(place) = EDGES.iter().position(|&edge| edge == size) {
        counts[place] += other_in_range as u64;
    }
}
