//! Shrinks a run while what it shows stays.

use super::call::Action;
use super::run::Run;
use crate::port::BLANK;
use crate::shrink::shrink;

/// Makes what surrounds the calls plain, then drops calls and shrinks
/// what they lend, as long as `shows` stays true.
pub fn shrink_run(run: &Run, shows: impl Fn(&Run) -> bool) -> Run {
    let mut run = run.clone();
    let plainer: [fn(&mut Run); 3] =
        [|run| run.screen.fill(BLANK), |run| run.ending.clear(), |run| run.spare = 0];
    for make_plainer in plainer {
        let mut tried = run.clone();
        make_plainer(&mut tried);
        if shows(&tried) {
            run = tried;
        }
    }
    loop {
        let length = run.script().len();
        let with = |calls: &[_]| Run { calls: calls.to_vec(), ..run.clone() };
        run = with(&shrink(&run.calls, |calls| shows(&with(calls))));
        for place in 0..run.calls.len() {
            run = with_less_lent(&run, place, &shows);
        }
        if run.script().len() == length {
            return run;
        }
    }
}

/// The same run with fewer bytes lent to the call at this place.
fn with_less_lent(run: &Run, place: usize, shows: &impl Fn(&Run) -> bool) -> Run {
    let (lent, action): (&[u8], fn(Vec<u8>) -> Action) = match &run.calls[place].action {
        Action::Open(_) | Action::Close | Action::Take => return run.clone(),
        Action::Write(lent) => (lent, Action::Write),
        Action::Return(lent) => (lent, Action::Return),
        Action::Restore(lent) => (lent, Action::Restore),
    };
    let with = |lent: &[u8]| {
        let mut shorter = run.clone();
        shorter.calls[place].action = action(lent.to_vec());
        shorter
    };
    with(&shrink(lent, |shorter| shows(&with(shorter))))
}
