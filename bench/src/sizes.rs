//! The bytes of the console's state, and the stack that a write needs.

use crate::feed::Feed;
use crate::frames::Object;
use crate::layout::Types;
use crate::library::{Calls, LIBRARY};
use crate::port::{BLANK, SCREEN_SIZE};
use crate::rng::Rng;
use crate::stack::used;
use crate::table::{texts, with_commas, Table};
use crate::workloads::{all, PAGE};

/// Calls that do nothing, to see what the stack holds without the library.
const NOTHING: Calls = Calls { run_stream: no_stream, put_bytes: no_bytes };

/// The return address, which a call that does nothing has as well.
const RETURN_ADDRESS: usize = 8;

pub fn run(notes: &str, disassembly: &str) -> Result<(), String> {
    let types = Types::new(&read(notes)?)?;
    let object = Object::new(&read(disassembly)?);
    print_state(&types, &object)?;
    print_stack(&object);
    Ok(())
}

fn read(path: &str) -> Result<String, String> {
    std::fs::read_to_string(path).map_err(|error| format!("{}: {}", path, error))
}

fn print_state(types: &Types, object: &Object) -> Result<(), String> {
    let mut table = Table::new(&texts(&["", "bytes"]));
    let multiplexer = types.size("slots::Multiplexer")?;
    let rows = [
        ("a port", types.size("port::Port")?),
        ("a slot: a client's number and its port", types.size("slots::Slot")?),
        ("a multiplexer: four slots", multiplexer),
    ];
    for (name, size) in rows {
        table.add(&[name.to_string(), with_commas(size as u64)]);
    }
    table.print("State, by the fields that the compiler noted");
    match object.copiers(multiplexer)[..] {
        [] => {
            println!("\nNot confirmed: the object code copies no block of {} bytes.", multiplexer)
        }
        ref names => println!(
            "\nConfirmed: the object code copies blocks of {} bytes, a multiplexer, in {}. With \
             another gap in a port, a slot or a multiplexer it would be more.",
            multiplexer,
            names.join(", ")
        ),
    }
    Ok(())
}

fn print_stack(object: &Object) {
    let mut table = Table::new(&texts(&["", "reserved", "touched"]));
    let touched = |feeds: &[Feed]| with_commas(deepest(feeds) as u64);
    let rows = [
        ("calls::write", "-".to_string()),
        ("combthrift_run_stream", touched(&[PAGE, Feed::Writes(7), Feed::Writes(1)])),
        ("combthrift_put_bytes", touched(&[Feed::Bytes])),
    ];
    for (name, touched) in rows {
        if object.has(name) {
            let (reserved, _) = object.deepest(name);
            table.add(&[name.to_string(), with_commas(reserved as u64), touched]);
        }
    }
    table.print("Stack in bytes, by the frames in the object code and as touched by runs");
    let (_, chain) = object.deepest("combthrift_run_stream");
    println!("\nThe deepest calls are {}.", chain.join(", "));
}

/// The most that the library touched on any workload and on random bytes.
fn deepest(feeds: &[Feed]) -> usize {
    let mut streams: Vec<Vec<u8>> =
        all(1 << 14, 1000).into_iter().map(|each| each.stream).collect();
    streams.push(Rng::new(1, 0).bytes(1 << 20));
    let depths =
        streams.iter().flat_map(|stream| feeds.iter().map(move |&feed| touched(stream, feed)));
    depths.max().unwrap_or(0)
}

fn touched(stream: &[u8], feed: Feed) -> usize {
    let depth = |calls: Calls| {
        let mut screen = [BLANK; SCREEN_SIZE];
        used(&mut || {
            calls.run(stream, feed, &mut screen);
        })
    };
    depth(LIBRARY) - depth(NOTHING) + RETURN_ADDRESS
}

unsafe extern "C" fn no_stream(
    _: *const u8,
    _: usize,
    _: usize,
    _: *mut u8,
    _: usize,
    _: *mut u8,
    _: usize,
) -> usize {
    0
}

unsafe extern "C" fn no_bytes(
    _: *const u8,
    _: usize,
    _: *mut u8,
    _: usize,
    _: *mut u8,
    _: usize,
) -> usize {
    0
}
