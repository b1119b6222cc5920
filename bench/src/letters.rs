//! A screen as text.

const COLUMNS: usize = 80;

/// Its lines, of cells that were printed in normal mode.
pub fn lines(screen: &[u8]) -> Vec<String> {
    screen.chunks(COLUMNS).map(|line| line.iter().map(|&cell| letter(cell)).collect()).collect()
}

fn letter(cell: u8) -> char {
    let code = if (0x80..0xA0).contains(&cell) { cell - 0x40 } else { cell & 0x7F };
    char::from(code)
}
