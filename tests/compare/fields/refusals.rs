//! Which refusals apply to a call on a field, each judged by itself, and
//! how long a text is by them.

use super::run::{Field, Position};

/// The statuses that can be reached, by kind of call. A text has none of
/// its own: what is counted is the refusal that makes it empty, where the
/// text held back would show.
pub const REACHABLE: [&[u8]; 3] = [&[0, 11, 12, 13], &[0, 11, 12, 13, 19], &[0, 11, 12, 13, 19]];

const ON_A_STATE: &[(u8, u8)] = &[(11, 12), (11, 13), (11, 19), (12, 13), (12, 19), (13, 19)];

/// The refusals that can apply at once, by kind of call.
pub const TOGETHER: [&[(u8, u8)]; 3] = [&[(11, 12), (11, 13), (12, 13)], ON_A_STATE, ON_A_STATE];

/// All that apply, the smallest first, which is the one to be given. A
/// start is given no state.
pub fn refusals(kind: usize, field: &Field, before: &Position) -> Vec<u8> {
    let judged = [
        (11, !in_range(field.width) || !in_range(field.maximum)),
        (12, before.buffer.len() < field.maximum),
        (13, field.default.len() > field.maximum),
        (19, kind != 0 && broken(field, before).contains(&true)),
    ];
    judged.iter().filter(|(_, applies)| *applies).map(|(number, _)| *number).collect()
}

/// How many bytes a text should have.
pub fn text_length(field: &Field, before: &Position) -> usize {
    match before.ending {
        _ if !refusals(2, field, before).is_empty() => 0,
        0x0D => before.state.length,
        0x1B => field.default.len(),
        _ => 0,
    }
}

pub fn in_range(size: usize) -> bool {
    (1..=254).contains(&size)
}

/// Which rule of a state is broken: the length past the maximum, the
/// cursor past the length, the cursor past the width.
pub fn broken(field: &Field, before: &Position) -> [bool; 3] {
    let state = before.state;
    [state.length > field.maximum, state.cursor > state.length, state.cursor > field.width]
}
