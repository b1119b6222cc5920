//! What a reader needs beside a table.

pub fn say_how(rounds: usize) {
    println!(
        "Buffers are cleared first: before each round the screen is filled with blanks, \
         outside of the time. Processor time of the feeding alone; the sides take turns \
         in each of {} rounds, and the best counts. The spread is the largest of their \
         medians over their bests: 1 in a quiet run.",
        rounds
    );
    say_load("before");
}

pub fn say_load(when: &str) {
    let load = std::fs::read_to_string("/proc/loadavg").unwrap_or_default();
    println!("Load of the machine {} the rounds: {}", when, load.trim());
}
