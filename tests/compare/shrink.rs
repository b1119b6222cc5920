//! Shrinks a list, such as a stream, while what it shows stays.

/// Removes pieces, long ones first, as long as `shows` stays true, until
/// no single item can be removed.
pub fn shrink<T: Clone>(list: &[T], mut shows: impl FnMut(&[T]) -> bool) -> Vec<T> {
    let mut shortest = list.to_vec();
    let mut size = (shortest.len() + 1) / 2;
    while size > 0 {
        let removed = remove_pieces(&mut shortest, size, &mut shows);
        // A removal may make others possible, so the last size is repeated.
        if size > 1 {
            size /= 2;
        } else if !removed {
            size = 0;
        }
    }
    shortest
}

/// Tries each piece of a size once, from the end of the list on, and
/// tells whether one was removed.
fn remove_pieces<T: Clone>(
    list: &mut Vec<T>,
    size: usize,
    shows: &mut impl FnMut(&[T]) -> bool,
) -> bool {
    let mut removed = false;
    let mut end = list.len();
    while end > 0 {
        let start = end.saturating_sub(size);
        let mut shorter = list[..start].to_vec();
        shorter.extend_from_slice(&list[end..]);
        if shows(&shorter) {
            *list = shorter;
            removed = true;
        }
        end = start;
    }
    removed
}
