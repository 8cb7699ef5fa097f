//! Starts: what their numbers and the length of the table show, and what that gives.

/// What is found, first things first, and what the start gives.
pub const FOUND: [(&str, u32); 11] = [
    ("no lane, the rest in range", 25),
    ("over 4 lanes, the rest in range", 25),
    ("no lane or over 4, another size out of range", 25),
    ("slots out of range", 1),
    ("slots in range, under twice the lanes", 1),
    ("tasks or growth out of range", 1),
    ("another length", 2),
    ("1 lane", 0),
    ("2 lanes", 0),
    ("3 lanes", 0),
    ("4 lanes", 0),
];
const NO_LANE: usize = 0;
const MANY_LANES: usize = 1;
const NOTHING_FITS: usize = 2;
const SLOTS: usize = 3;
const FEW_SLOTS: usize = 4;
const OTHERS: usize = 5;
const LENGTH: usize = 6;
const STARTS: usize = 7;

/// The place in `FOUND` of a start with these slots, tasks, growth and lanes over so many words.
pub fn place([slots, tasks, growth, lanes]: [u32; 4], words: usize) -> usize {
    let in_range = (2..=1024).contains(&slots);
    let others = (1..=16).contains(&tasks) && growth <= 64;
    match lanes {
        1..=4 if !in_range => SLOTS,
        1..=4 if slots < 2 * lanes => FEW_SLOTS,
        1..=4 if !others => OTHERS,
        1..=4 if words as u32 != 16 + 4 * slots + 13 * tasks => LENGTH,
        1..=4 => STARTS + lanes as usize - 1,
        _ if !(in_range && others) => NOTHING_FITS,
        0 => NO_LANE,
        _ => MANY_LANES,
    }
}

/// Holds what a start gave, 0 or the refusal, to the list.
pub fn hold(place: usize, given: u32) {
    let (name, gives) = FOUND[place];
    assert_eq!(given, gives, "start: {name}");
}

/// Prints how often each was seen; gives what was never seen.
pub fn report(seen: &[u64; FOUND.len()]) -> Vec<String> {
    println!("\n{:45} {:>7} {:>11}", "starts", "gives", "");
    let mut faults = Vec::new();
    for ((name, gives), &count) in FOUND.iter().zip(seen) {
        println!("{name:45} {gives:>7} {count:>11}");
        if count == 0 {
            faults.push(format!("never started: {name}"));
        }
    }
    faults
}
