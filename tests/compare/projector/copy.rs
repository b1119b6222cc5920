//! The projector's copy of the screen, through a run with takings.

use super::counts::{Counts, Taking};
use super::takings::{answers, Watched};
use crate::lines::{differing, in_words, places, ALL_LINES};
use crate::scripts::answer::Answer;
use crate::scripts::call::{Action, Call};
use crate::scripts::outcomes::cell_name;
use std::ops::Range;

/// Copies the marked lines in each frame, and counts. Tells in words where
/// the copy is not the screen then.
pub fn follow(watched: &Watched) -> Result<Counts, String> {
    let run = &watched.run;
    let outcome = run.by_library();
    let answers = answers(run, &outcome)?;
    let mut copy = run.screen.clone();
    let mut counts = Counts::default();
    let mut start = 0;
    for frame in &watched.frames {
        let taken = takings(&run.calls, &answers, start..frame.made);
        let screen = answers[frame.made - 1].cells;
        counts.see(&taken, differing(&copy, screen));
        let marked = taken.iter().fold(0, |lines, taking| lines | taking.marks);
        copy_lines(&mut copy, screen, marked);
        check(&copy, screen, marked).map_err(|fault| {
            format!("after call {} ({}): {}", frame.number, run.calls[frame.call], fault)
        })?;
        start = frame.made;
    }
    Ok(counts)
}

/// The takings among some of the calls.
fn takings(calls: &[Call], answers: &[Answer], among: Range<usize>) -> Vec<Taking> {
    let is_taking = |place: &usize| matches!(calls[*place].action, Action::Take);
    let taking = |place: usize| Taking {
        marks: answers[place].marks,
        before_closing: closed_next(calls, place),
    };
    among.filter(is_taking).map(taking).collect()
}

/// Whether the next call closes the client of this one.
fn closed_next(calls: &[Call], place: usize) -> bool {
    calls.get(place + 1).map_or(false, |next| {
        matches!(next.action, Action::Close) && next.client == calls[place].client
    })
}

/// Whole lines of the screen. One of another length has none.
fn copy_lines(copy: &mut [u8], screen: &[u8], lines: u32) {
    for place in places(lines).filter(|place| place.end <= screen.len()) {
        copy[place.clone()].copy_from_slice(&screen[place]);
    }
}

fn check(copy: &[u8], screen: &[u8], marked: u32) -> Result<(), String> {
    if marked & !ALL_LINES != 0 {
        return Err(format!("marked lines {}, which are not all on a screen", in_words(marked)));
    }
    if copy == screen {
        return Ok(());
    }
    let place = (0..screen.len()).find(|&place| copy[place] != screen[place]);
    let place = place.expect("both are of one length");
    Err(format!(
        "{} is {:02x} in the copy and {:02x} on the screen; marked lines: {}; \
         lines still different: {}",
        cell_name(place),
        copy[place],
        screen[place],
        in_words(marked),
        in_words(differing(copy, screen))
    ))
}
