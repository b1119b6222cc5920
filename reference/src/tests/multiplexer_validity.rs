//! Each clause of a multiplexer's validity, broken once.

use super::lines;
use super::multiplexers::{four, free, slot, two};
use crate::multiplexer::{Multiplexer, Slot};
use crate::port::{Port, State};

/// A slot's fields, each changed alone to something else than 0 or false.
fn changed_fields(start: Slot) -> Vec<Slot> {
    let mut slots = Vec::new();
    for state in changed_states(start.port.state) {
        slots.push(Slot { port: Port { state, ..start.port }, ..start });
    }
    for saved in changed_states(start.port.saved) {
        slots.push(Slot { port: Port { saved, ..start.port }, ..start });
    }
    let mut add = |change: fn(&mut Port)| {
        let mut slot = start;
        change(&mut slot.port);
        slots.push(slot);
    };
    add(|port| port.home.left = 1);
    add(|port| port.home.top = 1);
    add(|port| port.home.right = 1);
    add(|port| port.home.bottom = 1);
    add(|port| port.has_saved = true);
    add(|port| port.waiting = 0x05);
    add(|port| port.gathered = 1);
    add(|port| port.parameters[0] = 1);
    add(|port| port.parameters[1] = 1);
    add(|port| port.parameters[2] = 1);
    add(|port| port.parameters[3] = 1);
    add(|port| port.marks = 1);
    add(|port| port.marks = 1 << 24);
    slots
}

fn changed_states(start: State) -> Vec<State> {
    let mut states = Vec::new();
    let mut add = |change: fn(&mut State)| {
        let mut state = start;
        change(&mut state);
        states.push(state);
    };
    add(|state| state.viewport.left = 1);
    add(|state| state.viewport.top = 1);
    add(|state| state.viewport.right = 1);
    add(|state| state.viewport.bottom = 1);
    add(|state| state.cursor.column = 1);
    add(|state| state.cursor.line = 1);
    add(|state| state.flags.dle = true);
    add(|state| state.flags.scroll = true);
    add(|state| state.flags.wrap = true);
    add(|state| state.flags.lf = true);
    add(|state| state.flags.advance = true);
    add(|state| state.inverse = true);
    add(|state| state.mousetext = true);
    states
}

/// A multiplexer with one open slot or changed free slot at this place.
fn only(place: usize, slot: Slot) -> Multiplexer {
    let mut multiplexer = Multiplexer { slots: [free(), free(), free(), free()] };
    multiplexer.slots[place] = slot;
    multiplexer
}

/// A multiplexer with two such slots.
fn pair(first: usize, one: Slot, second: usize, other: Slot) -> Multiplexer {
    let mut multiplexer = only(first, one);
    multiplexer.slots[second] = other;
    multiplexer
}

#[test]
fn valid_multiplexers() {
    assert!(Multiplexer { slots: [free(), free(), free(), free()] }.valid());
    assert!(two().valid());
    assert!(four().valid());
    for place in 0..4 {
        assert!(only(place, slot(1, 0, 0, 1, 1)).valid());
        assert!(only(place, slot(255, 0, 0, 79, 23)).valid());
    }
    // A port that is not fresh any more.
    let mut used = slot(7, 10, 5, 12, 7);
    used.port.has_saved = true;
    used.port.saved = used.port.state;
    used.port.state.cursor.column = 12;
    used.port.waiting = 0x1E;
    used.port.gathered = 1;
    used.port.parameters[0] = 0xFF;
    used.port.marks = lines(5, 7);
    assert!(pair(3, used, 1, slot(8, 13, 5, 14, 7)).valid());
}

#[test]
fn open_slots_have_valid_ports() {
    for place in 0..4 {
        for fault in 0..7 {
            let mut broken = slot(7, 10, 5, 12, 7);
            let port = &mut broken.port;
            match fault {
                0 => port.home.right = 80,
                1 => port.state.viewport.left = 9,
                2 => port.state.cursor.line = 4,
                3 => port.has_saved = true,
                4 => port.waiting = 0x07,
                5 => port.parameters[0] = 1,
                _ => port.marks = 1 << 8,
            }
            assert!(!only(place, broken).valid(), "place {}, fault {}", place, fault);
        }
        // All 0 but the client is no open slot.
        assert!(!only(place, Slot { client: 9, ..free() }).valid());
    }
}

#[test]
fn client_0_marks_a_free_slot() {
    for place in 0..4 {
        // An open slot's port with client 0.
        assert!(!only(place, slot(0, 10, 5, 12, 7)).valid());
        let mut multiplexer = four();
        multiplexer.slots[place].client = 0;
        assert!(!multiplexer.valid());
    }
}

#[test]
fn clients_are_different() {
    for first in 0..4 {
        for second in 0..4 {
            let mut multiplexer = four();
            multiplexer.slots[first].client = multiplexer.slots[second].client;
            assert_eq!(multiplexer.valid(), first == second, "places {} {}", first, second);
        }
    }
    // Four different ones of any value.
    for client in 4..=255 {
        let mut multiplexer = four();
        for place in 0..4 {
            multiplexer.slots[place].client = client - place as u8;
        }
        assert!(multiplexer.valid());
    }
}

#[test]
fn panes_share_no_cell() {
    for first in 0..4 {
        for second in 0..4 {
            if first == second {
                continue;
            }
            let one = slot(7, 10, 5, 12, 7);
            // Exactly one cell: each corner.
            assert!(!pair(first, one, second, slot(8, 8, 3, 10, 5)).valid());
            assert!(!pair(first, one, second, slot(8, 12, 3, 14, 5)).valid());
            assert!(!pair(first, one, second, slot(8, 8, 7, 10, 9)).valid());
            assert!(!pair(first, one, second, slot(8, 12, 7, 14, 9)).valid());
            // The same, inside, around, crossed like a plus sign.
            assert!(!pair(first, one, second, slot(8, 10, 5, 12, 7)).valid());
            assert!(!pair(first, one, second, slot(8, 11, 6, 12, 7)).valid());
            assert!(!pair(first, one, second, slot(8, 0, 0, 79, 23)).valid());
            assert!(!pair(first, one, second, slot(8, 11, 0, 12, 23)).valid());
            // One cell further away they only touch.
            assert!(pair(first, one, second, slot(8, 8, 3, 9, 5)).valid());
            assert!(pair(first, one, second, slot(8, 13, 3, 14, 5)).valid());
            assert!(pair(first, one, second, slot(8, 8, 8, 10, 9)).valid());
            assert!(pair(first, one, second, slot(8, 12, 8, 14, 9)).valid());
        }
    }
}

#[test]
fn panes_count_and_not_the_viewports() {
    let mut one = slot(7, 10, 5, 12, 7);
    one.port.state.viewport.right = 11;
    let mut other = slot(8, 12, 5, 20, 7);
    other.port.state.viewport.left = 15;
    other.port.state.cursor.column = 15;
    assert!(only(0, one).valid());
    assert!(only(0, other).valid());
    assert!(!pair(0, one, 1, other).valid());
}

#[test]
fn free_slots_hold_zero() {
    // 4 of home, 13 of the state, 13 of the save, 7 more, and 2 of the marks.
    assert_eq!(changed_fields(free()).len(), 39);
    for place in 0..4 {
        for slot in changed_fields(free()) {
            assert!(!only(place, slot).valid(), "place {}, {:?}", place, slot);
        }
    }
    for slot in changed_fields(free()) {
        for place in [1, 3] {
            let mut multiplexer = two();
            multiplexer.slots[place] = slot;
            assert!(!multiplexer.valid(), "place {}, {:?}", place, slot);
        }
    }
}
