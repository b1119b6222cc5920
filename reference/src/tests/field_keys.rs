//! The input field: its start, each key, ending keys, and the text it gives.

use crate::field::{keys, start, text, Answer, Ending, State};

/// A field as its host keeps it between calls.
#[derive(Clone, Debug, PartialEq, Eq)]
struct Host {
    width: usize,
    maximum: usize,
    default: Vec<u8>,
    buffer: Vec<u8>,
    state: State,
}

impl Host {
    /// A buffer of this content, whose text is its first `length` bytes.
    fn new(width: usize, maximum: usize, buffer: &[u8], length: usize, cursor: usize) -> Host {
        let state = State { length, cursor };
        Host { width, maximum, default: b"\x00\xFF".to_vec(), buffer: buffer.to_vec(), state }
    }

    fn with_default(mut self, default: &[u8]) -> Host {
        self.default = default.to_vec();
        self
    }

    /// Hands keys over and keeps the new state.
    fn press(&mut self, stream: &[u8]) -> Answer {
        let (width, maximum, state) = (self.width, self.maximum, self.state);
        let answer = keys(width, maximum, &self.default, &mut self.buffer, state, stream);
        assert_eq!(answer.status, 0, "status, keys {:02X?}", stream);
        self.state = answer.state;
        answer
    }

    fn text(&self, ending: Ending) -> &[u8] {
        text(self.width, self.maximum, &self.default, &self.buffer, self.state, ending)
    }
}

/// Hands the stream over in pieces, up to the piece with an ending key, and
/// compares every byte of the buffer, the state, the counts and the ending.
fn check_pieces(before: &Host, pieces: &[&[u8]], after: &Host, counts: (usize, usize), by: Ending) {
    let mut host = before.clone();
    let (mut read, mut beeps) = (0, 0);
    let mut ending = Ending::None;
    for piece in pieces {
        let answer = host.press(piece);
        read += answer.read;
        beeps += answer.beeps;
        ending = answer.ending;
        if ending != Ending::None {
            break;
        }
        assert_eq!(answer.read, piece.len(), "all read, pieces {:02X?}", pieces);
    }
    assert_eq!(host, *after, "pieces {:02X?}", pieces);
    assert_eq!((read, beeps), counts, "read and beeps, pieces {:02X?}", pieces);
    assert_eq!(ending, by, "ending, pieces {:02X?}", pieces);
}

/// In one call, cut once at every place, and one key a call: all the same.
fn check_ended(before: &Host, stream: &[u8], after: &Host, counts: (usize, usize), by: Ending) {
    check_pieces(before, &[stream], after, counts, by);
    for place in 0..stream.len() {
        let pieces = [&stream[..place], &stream[place..]];
        check_pieces(before, &pieces, after, counts, by);
    }
    let single: Vec<&[u8]> = stream.chunks(1).collect();
    check_pieces(before, &single, after, counts, by);
}

/// Without an ending key: the buffer, length and cursor that come out.
fn check(before: &Host, stream: &[u8], buffer: &[u8], state: (usize, usize), beeps: usize) {
    let mut after = before.clone();
    after.buffer = buffer.to_vec();
    after.state = State { length: state.0, cursor: state.1 };
    check_ended(before, stream, &after, (stream.len(), beeps), Ending::None);
}

/// Every key of the stream is beeped and changes nothing.
fn check_beeped(before: &Host, stream: &[u8]) {
    check_ended(before, stream, before, (stream.len(), stream.len()), Ending::None);
}

fn check_start(sizes: (usize, usize), default: &[u8], buffer: &[u8], cursor: usize) {
    let mut lent = b"........".to_vec();
    let (status, state) = start(sizes.0, sizes.1, default, &mut lent);
    assert_eq!((status, state), (0, State { length: default.len(), cursor }));
    assert_eq!(lent, buffer);
}

#[test]
fn start_is_the_default_with_the_cursor_after_it() {
    check_start((8, 8), b"abc", b"abc.....", 3);
    check_start((8, 8), b"abcdefgh", b"abcdefgh", 8);
    // The buffer may be longer than the maximum; its rest stays.
    check_start((254, 3), b"abc", b"abc.....", 3);
    check_start((1, 1), b"a", b"a.......", 1);
}

#[test]
fn start_with_an_empty_default_changes_no_byte() {
    check_start((1, 1), b"", b"........", 0);
    check_start((254, 8), b"", b"........", 0);
}

#[test]
fn start_cursor_stops_at_the_width() {
    check_start((3, 8), b"abc", b"abc.....", 3);
    check_start((2, 8), b"abc", b"abc.....", 2);
    check_start((1, 8), b"abcdefgh", b"abcdefgh", 1);
}

#[test]
fn start_takes_a_default_of_any_bytes() {
    check_start((8, 8), b"\x00\x0D\x1B\x7F\x80\xFF", b"\x00\x0D\x1B\x7F\x80\xFF..", 6);
    let every: Vec<u8> = (0..=255).collect();
    for part in every.chunks(64) {
        let mut buffer = [0x55; 70];
        assert_eq!(start(80, 64, part, &mut buffer), (0, State { length: 64, cursor: 64 }));
        assert_eq!(buffer[..64], *part);
        assert_eq!(buffer[64..], [0x55; 6]);
    }
}

#[test]
fn printing_keys_insert_at_the_cursor() {
    let at = |cursor| Host::new(8, 6, b"abc.....", 3, cursor);
    check(&at(0), b"X", b"Xabc....", (4, 1), 0);
    check(&at(2), b"X", b"abXc....", (4, 3), 0);
    check(&at(3), b"X", b"abcX....", (4, 4), 0);
    check(&at(1), b"XYZ", b"aXYZbc..", (6, 4), 0);
}

#[test]
fn printing_keys_are_20_to_7e() {
    for key in 0..=255 {
        let before = Host::new(8, 6, b"abc.....", 3, 1);
        let mut host = before.clone();
        let answer = host.press(&[key]);
        if (0x20..=0x7E).contains(&key) {
            assert_eq!(host.buffer, [b'a', key, b'b', b'c', b'.', b'.', b'.', b'.']);
            assert_eq!((answer.state, answer.beeps), (State { length: 4, cursor: 2 }, 0));
        } else {
            assert!(answer.state.length <= 3, "key {:02X} inserted", key);
        }
    }
}

#[test]
fn full_text_beeps_a_printing_key() {
    for cursor in 0..=3 {
        check_beeped(&Host::new(8, 3, b"abc.....", 3, cursor), b"X ~");
    }
    // The maximum counts, and not the buffer's end.
    check(&Host::new(8, 4, b"abc.....", 3, 3), b"XYZ", b"abcX....", (4, 4), 2);
}

#[test]
fn cursor_at_the_width_beeps_a_printing_key() {
    check_beeped(&Host::new(3, 8, b"abc.....", 3, 3), b"X ~");
    check_beeped(&Host::new(3, 8, b"abcde...", 5, 3), b"X ~");
    check(&Host::new(4, 8, b"abc.....", 3, 3), b"XYZ", b"abcX....", (4, 4), 2);
}

#[test]
fn full_text_and_cursor_at_the_width_beep_once() {
    check_beeped(&Host::new(3, 3, b"abc.....", 3, 3), b"X");
    check_beeped(&Host::new(2, 3, b"abc.....", 3, 2), b"X");
}

#[test]
fn text_beyond_the_width_is_kept() {
    // Pushed out at the right, and back again by deletes.
    let before = Host::new(3, 5, b"abc.....", 3, 0);
    check(&before, b"XYZ", b"XYabc...", (5, 2), 1);
    // Each delete moves what follows and leaves the old last byte behind:
    // XYabc, Xabc and c, abc and cc.
    check(&before, b"XY\x04\x04", b"abccc...", (3, 0), 0);
    let kept = Host::new(2, 6, b"abcdef..", 6, 2);
    check(&kept, b"\x04\x04", b"cdefff..", (4, 0), 0);
    check(&kept, b"\x04\x04\x06\x06\x06", b"ffffff..", (1, 0), 0);
}

#[test]
fn a_field_of_width_1() {
    let before = Host::new(1, 4, b"........", 0, 0);
    check(&before, b"abc", b"a.......", (1, 1), 2);
    check(&before, b"a\x08b\x08c\x08d\x08e", b"dcba....", (4, 0), 1);
}

#[test]
fn largest_width_and_maximum() {
    let mut host = Host::new(254, 254, &[0x55; 254], 0, 0);
    let mut stream = vec![b'a'; 253];
    stream.extend_from_slice(b"bcd");
    let answer = host.press(&stream);
    assert_eq!((answer.read, answer.beeps), (256, 2));
    assert_eq!(answer.state, State { length: 254, cursor: 254 });
    assert_eq!(host.buffer[..253], [b'a'; 253]);
    assert_eq!(host.buffer[253], b'b');
}

#[test]
fn left_moves_and_beeps_at_0() {
    let before = Host::new(8, 6, b"abc.....", 3, 3);
    check(&before, b"\x08", b"abc.....", (3, 2), 0);
    check(&before, b"\x08\x08\x08\x08\x08", b"abc.....", (3, 0), 2);
    // From the width, with text beyond it.
    check(&Host::new(2, 6, b"abcd....", 4, 2), b"\x08", b"abcd....", (4, 1), 0);
}

#[test]
fn right_moves_and_beeps_at_the_end_of_the_text() {
    let before = Host::new(8, 6, b"abc.....", 3, 1);
    check(&before, b"\x15", b"abc.....", (3, 2), 0);
    check(&before, b"\x15\x15\x15\x15", b"abc.....", (3, 3), 2);
    check_beeped(&Host::new(8, 6, b"abc.....", 0, 0), b"\x15\x08");
}

#[test]
fn right_beeps_at_the_width() {
    let before = Host::new(2, 6, b"abcd....", 4, 0);
    check(&before, b"\x15\x15\x15\x15", b"abcd....", (4, 2), 2);
    check_beeped(&Host::new(2, 6, b"ab......", 2, 2), b"\x15");
}

#[test]
fn both_keys_delete_left() {
    for key in [b"\x04", b"\x7F"] {
        let at = |cursor| Host::new(8, 6, b"abcd....", 4, cursor);
        // The byte that the text no longer holds stays in the buffer.
        check(&at(4), key, b"abcd....", (3, 3), 0);
        check(&at(2), key, b"acdd....", (3, 1), 0);
        check(&at(1), key, b"bcdd....", (3, 0), 0);
        check_beeped(&at(0), key);
        check_beeped(&Host::new(8, 6, b"abcd....", 0, 0), key);
        // With text beyond the width, part of which comes back into it.
        check(&Host::new(2, 6, b"abcd....", 4, 2), key, b"acdd....", (3, 1), 0);
    }
    let before = Host::new(8, 6, b"abcd....", 4, 2);
    check(&before, b"\x04\x7F\x04\x7F", b"cddd....", (2, 0), 2);
}

#[test]
fn delete_under_the_cursor() {
    let at = |cursor| Host::new(8, 6, b"abcd....", 4, cursor);
    check(&at(0), b"\x06", b"bcdd....", (3, 0), 0);
    check(&at(2), b"\x06", b"abdd....", (3, 2), 0);
    check(&at(3), b"\x06", b"abcd....", (3, 3), 0);
    check(&at(2), b"\x06\x06\x06", b"abdd....", (2, 2), 1);
    check_beeped(&at(4), b"\x06");
    check_beeped(&Host::new(8, 6, b"abcd....", 0, 0), b"\x06");
}

#[test]
fn delete_under_the_cursor_at_the_width() {
    let before = Host::new(2, 6, b"abcd....", 4, 2);
    check(&before, b"\x06", b"abdd....", (3, 2), 0);
    check(&before, b"\x06\x06\x06", b"abdd....", (2, 2), 1);
    check_beeped(&Host::new(2, 6, b"abcd....", 2, 2), b"\x06");
}

#[test]
fn empty_the_text() {
    for cursor in 0..=4 {
        let before = Host::new(8, 6, b"abcd....", 4, cursor);
        check(&before, b"\x18", b"abcd....", (0, 0), 0);
        check(&before, b"\x18\x18\x18", b"abcd....", (0, 0), 2);
    }
    // What is beyond the width goes too.
    check(&Host::new(2, 6, b"abcd....", 4, 2), b"\x18\x15", b"abcd....", (0, 0), 1);
    check_beeped(&Host::new(8, 6, b"abcd....", 0, 0), b"\x18");
}

#[test]
fn delete_to_the_end_of_the_text() {
    let at = |cursor| Host::new(8, 6, b"abcd....", 4, cursor);
    check(&at(0), b"\x19", b"abcd....", (0, 0), 0);
    check(&at(3), b"\x19", b"abcd....", (3, 3), 0);
    check(&at(1), b"\x19\x19", b"abcd....", (1, 1), 1);
    check_beeped(&at(4), b"\x19");
    check_beeped(&Host::new(8, 6, b"abcd....", 0, 0), b"\x19");
    // The end of the text, and not of the width.
    check(&Host::new(3, 6, b"abcd....", 4, 1), b"\x19", b"abcd....", (1, 1), 0);
    check(&Host::new(2, 6, b"abcd....", 4, 2), b"\x19", b"abcd....", (2, 2), 0);
    check_beeped(&Host::new(2, 6, b"abcd....", 2, 2), b"\x19");
}

#[test]
fn back_to_the_start() {
    let before = Host::new(8, 6, b"abcd....", 4, 1);
    check(&before.clone().with_default(b"XY"), b"\x1A", b"XYcd....", (2, 2), 0);
    check(&before.clone().with_default(b"UVWXYZ"), b"\x1A", b"UVWXYZ..", (6, 6), 0);
    check(&before.clone().with_default(b"\x00\x0D\xFF"), b"\x1A", b"\x00\x0D\xFFd....", (3, 3), 0);
    check(&before.with_default(b""), b"\x1A", b"abcd....", (0, 0), 0);
    let narrow = Host::new(2, 6, b"abcd....", 4, 1).with_default(b"XYZ");
    check(&narrow, b"\x1A", b"XYZd....", (3, 2), 0);
}

#[test]
fn back_to_the_start_is_never_beeped() {
    let before = Host::new(8, 6, b"ab......", 2, 2).with_default(b"ab");
    check(&before, b"\x1A\x1A\x1A", b"ab......", (2, 2), 0);
    let empty = Host::new(8, 6, b"ab......", 0, 0).with_default(b"");
    check(&empty, b"\x1A\x1A", b"ab......", (0, 0), 0);
}

#[test]
fn keys_with_text_of_any_bytes() {
    let before = Host::new(8, 6, b"\x00\x0D\x1B\xFF....", 4, 2);
    check(&before, b"\x04", b"\x00\x1B\xFF\xFF....", (3, 1), 0);
    check(&before, b"\x06", b"\x00\x0D\xFF\xFF....", (3, 2), 0);
    check(&before, b"X\x15", b"\x00\x0DX\x1B\xFF...", (5, 4), 0);
}

#[test]
fn other_keys_are_beeped() {
    let known = [0x04, 0x06, 0x08, 0x0D, 0x15, 0x18, 0x19, 0x1A, 0x1B];
    for key in (0..0x20).chain(0x80..=0xFF) {
        if !known.contains(&key) {
            check_beeped(&Host::new(8, 6, b"abcd....", 4, 2), &[key]);
            check_beeped(&Host::new(8, 6, b"abcd....", 0, 0), &[key]);
        }
    }
    // $05 among them: there is no replace mode, so keys after it insert too.
    check(&Host::new(8, 6, b"abc.....", 3, 1), b"\x05X", b"aXbc....", (4, 2), 1);
}

#[test]
fn an_empty_stream_reads_nothing() {
    let before = Host::new(8, 6, b"abcd....", 4, 2);
    check_ended(&before, b"", &before, (0, 0), Ending::None);
}

#[test]
fn ending_keys_are_read_and_named() {
    for (key, ending) in [(0x0D, Ending::Return), (0x1B, Ending::Escape)] {
        // Whatever the text and the cursor; neither is changed, none beeps.
        for (length, cursor) in [(0, 0), (4, 0), (4, 2), (6, 2)] {
            let before = Host::new(2, 6, b"abcdef..", length, cursor);
            check_ended(&before, &[key], &before, (1, 0), ending);
        }
    }
}

#[test]
fn keys_after_an_ending_key_are_not_read() {
    let before = Host::new(8, 6, b"ab......", 2, 2);
    let after = Host::new(8, 6, b"abc.....", 3, 3);
    check_ended(&before, b"c\x00\rX\x18\x1B", &after, (3, 1), Ending::Return);
    check_ended(&before, b"c\x00\x1BX\x00\r", &after, (3, 1), Ending::Escape);
    check_ended(&before, b"\r\r", &before, (1, 0), Ending::Return);
    check_ended(&before, b"\x1B\r", &before, (1, 0), Ending::Escape);
}

#[test]
fn keys_can_go_on_after_an_ending_key() {
    let mut host = Host::new(8, 6, b"ab......", 2, 2);
    let stream = b"c\x1Bd\x00\r\x18";
    let first = host.press(stream);
    assert_eq!((first.read, first.beeps, first.ending), (2, 0, Ending::Escape));
    let second = host.press(&stream[2..]);
    assert_eq!((second.read, second.beeps, second.ending), (3, 1, Ending::Return));
    assert_eq!(host, Host::new(8, 6, b"abcd....", 4, 4));
}

#[test]
fn a_deleted_character_stays_behind_the_text() {
    // Typed and deleted again in one call or more, it is still there.
    let before = Host::new(8, 6, b"........", 0, 0);
    check(&before, b"abc\x04\x04", b"abc.....", (1, 1), 0);
    check(&before, b"abc\x18XY", b"XYc.....", (2, 2), 0);
    check(&before, b"abc\x08\x08\x08\x06\x19", b"bcc.....", (0, 0), 0);
    check(&before.clone().with_default(b"Z"), b"abc\x1A", b"Zbc.....", (1, 1), 0);
}

/// Every key in every state of every small field keeps the rules that hold
/// for all keys.
#[test]
fn rules_for_every_key_in_every_small_field() {
    for (width, maximum) in [(1, 1), (1, 4), (2, 4), (4, 4), (5, 4), (4, 2), (254, 3)] {
        for length in 0..=maximum {
            for cursor in 0..=length.min(width) {
                let host = Host::new(width, maximum, b"abcdef", length, cursor);
                let default = b"uvwxyz"[..maximum / 2].to_vec();
                for key in 0..=255 {
                    check_rules(host.clone().with_default(&default), key);
                }
            }
        }
    }
}

fn check_rules(before: Host, key: u8) {
    let mut after = before.clone();
    let answer = after.press(&[key]);
    let State { length, cursor } = after.state;
    assert!(length <= after.maximum && cursor <= length && cursor <= after.width);
    assert_eq!(after.buffer[length..], before.buffer[length..], "key {:02X}", key);
    assert_eq!(answer.read, 1);
    // Beeped, ended, or something done; and only one of these.
    let ends = key == 0x0D || key == 0x1B;
    assert_eq!(answer.ending != Ending::None, ends);
    if answer.beeps > 0 || ends {
        assert_eq!(answer.beeps, if ends { 0 } else { 1 });
        assert_eq!(after, before, "key {:02X}", key);
    } else if key != 0x1A {
        assert_ne!(after.state, before.state, "key {:02X}", key);
    }
}

#[test]
fn return_gives_the_typed_part_of_the_buffer_itself() {
    for (length, cursor) in [(0, 0), (1, 0), (4, 2), (6, 0)] {
        // The second field has text beyond the width.
        for width in [8, 2] {
            let host = Host::new(width, 6, b"abcdefgh", length, cursor);
            let stretch = host.text(Ending::Return);
            assert_eq!(stretch, &b"abcdefgh"[..length]);
            assert_eq!(stretch.as_ptr(), host.buffer.as_ptr());
        }
    }
}

#[test]
fn escape_gives_the_lent_default_itself() {
    for default in [&b""[..], b"a", b"\x00\x0D\x1B\xFF", b"uvwxyz"] {
        // Whatever was typed, and whatever the width.
        for (width, length, cursor) in [(8, 0, 0), (8, 6, 6), (2, 4, 2)] {
            let host = Host::new(width, 6, b"abcdefgh", length, cursor).with_default(default);
            let stretch = host.text(Ending::Escape);
            assert_eq!(stretch, default);
            assert_eq!(stretch.as_ptr(), host.default.as_ptr());
        }
    }
}

#[test]
fn no_ending_gives_an_empty_stretch() {
    for (length, cursor) in [(0, 0), (4, 2), (6, 6)] {
        let host = Host::new(8, 6, b"abcdefgh", length, cursor);
        assert!(host.text(Ending::None).is_empty());
    }
}

#[test]
fn a_bench_name_from_start_to_text() {
    let mut host = Host::new(6, 10, &[0; 12], 0, 0).with_default(b"BENCH");
    let started = start(6, 10, b"BENCH", &mut host.buffer);
    assert_eq!(started, (0, State { length: 5, cursor: 5 }));
    host.state = started.1;
    // A 7 fills the width, the second is beeped; three lefts, two inserts.
    let answer = host.press(b"77\x08\x08\x08OR\x0D");
    assert_eq!((answer.read, answer.beeps, answer.ending), (8, 1, Ending::Return));
    assert_eq!(answer.state, State { length: 8, cursor: 5 });
    assert_eq!(host.buffer, b"BENORCH7\0\0\0\0");
    assert_eq!(host.text(Ending::Return), b"BENORCH7");
    assert_eq!(host.text(Ending::Escape), b"BENCH");
    assert_eq!(host.text(Ending::None), b"");
}
