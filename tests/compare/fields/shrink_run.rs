//! Shrinks a run while what it shows stays.

use super::call::{Action, Call};
use super::run::Run;
use crate::field::State;
use crate::shrink::shrink;

/// Drops calls and keys and makes all that is lent shorter and plainer,
/// as long as `shows` stays true.
pub fn shrink_run(run: &Run, shows: impl Fn(&Run) -> bool) -> Run {
    let mut run = run.clone();
    loop {
        let before = run.clone();
        let with = |calls: &[_]| Run { calls: calls.to_vec(), ..before.clone() };
        run = with(&shrink(&before.calls, |calls| shows(&with(calls))));
        for place in 0..run.calls.len() {
            run = with_fewer_keys(&run, place, &shows);
            for change in CALL_CHANGES {
                run = tried(run, |run| change(&mut run.calls[place]), &shows);
            }
        }
        for change in FIELD_CHANGES {
            run = tried(run, change, &shows);
        }
        if run == before {
            return run;
        }
    }
}

/// The changed run if it shows the same, and otherwise the run itself.
fn tried(run: Run, change: impl Fn(&mut Run), shows: &impl Fn(&Run) -> bool) -> Run {
    let mut changed = run.clone();
    change(&mut changed);
    if shows(&changed) {
        changed
    } else {
        run
    }
}

/// What makes a call plainer.
const CALL_CHANGES: [fn(&mut Call); 8] = [
    |call| call.spare = call.spare.signum(),
    |call| call.spare = 0,
    |call| own(call).map_or((), |state| *state = None),
    |call| smaller(call, |state| state.length /= 2),
    |call| smaller(call, |state| state.length = state.length.saturating_sub(1)),
    |call| smaller(call, |state| state.cursor /= 2),
    |call| smaller(call, |state| state.cursor = state.cursor.saturating_sub(1)),
    |call| {
        if let Action::Text { ending, .. } = &mut call.action {
            *ending = None
        }
    },
];

/// The state that a call has of its own, if it can have one.
fn own(call: &mut Call) -> Option<&mut Option<State>> {
    match &mut call.action {
        Action::Start => None,
        Action::Keys { state, .. } | Action::Text { state, .. } => Some(state),
    }
}

fn smaller(call: &mut Call, change: fn(&mut State)) {
    if let Some(Some(state)) = own(call) {
        change(state);
    }
}

/// The same run with fewer keys handed to the call at this place.
fn with_fewer_keys(run: &Run, place: usize, shows: &impl Fn(&Run) -> bool) -> Run {
    let (state, keys) = match &run.calls[place].action {
        Action::Keys { state, keys } => (state, keys),
        _ => return run.clone(),
    };
    let with = |keys: &[u8]| {
        let mut shorter = run.clone();
        shorter.calls[place].action = Action::Keys { state: *state, keys: keys.to_vec() };
        shorter
    };
    with(&shrink(keys, |keys| shows(&with(keys))))
}

/// What makes a field smaller and its texts shorter and plainer.
const FIELD_CHANGES: [fn(&mut Run); 10] = [
    |run| run.field.width /= 2,
    |run| run.field.width = run.field.width.saturating_sub(1),
    |run| run.field.maximum /= 2,
    |run| run.field.maximum = run.field.maximum.saturating_sub(1),
    |run| shorten(&mut run.field.default),
    |run| shorten(&mut run.buffer),
    |run| run.buffer.fill(0),
    narrow,
    lower,
    |run| {
        lower(run);
        shorten(&mut run.field.default);
    },
];

fn shorten(bytes: &mut Vec<u8>) {
    bytes.truncate(bytes.len().saturating_sub(1));
}

/// One column less, for every cursor too.
fn narrow(run: &mut Run) {
    run.field.width = run.field.width.saturating_sub(1);
    for call in &mut run.calls {
        smaller(call, |state| state.cursor = state.cursor.saturating_sub(1));
    }
}

/// One byte less to type, in the buffer and for every length too.
fn lower(run: &mut Run) {
    run.field.maximum = run.field.maximum.saturating_sub(1);
    shorten(&mut run.buffer);
    for call in &mut run.calls {
        smaller(call, |state| state.length = state.length.saturating_sub(1));
    }
}
