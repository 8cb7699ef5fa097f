//! Windows of lost swaps, made and fed by both programs: of every width at a limit, over every pair of steps, with
//! counts about the last number, and with words out of range; and fed each tick that the other tests make.

use std::collections::VecDeque;

use lane::ffi;
use reference::table::{header, record, Sizes};
use reference::window::{self, MAX_WIDTH, WORDS};

use crate::both::{halves, pair};
use crate::common::random::Random;
use crate::lent::Lent;
use crate::outcomes::Outcome;

/// Widths at the limits of a window's, and some between.
const WIDTHS: [u32; 7] = [1, 2, 3, 5, 64, MAX_WIDTH - 1, MAX_WIDTH];
/// Widths that are none.
const NONE: [u32; 4] = [0, MAX_WIDTH + 1, 1 << 31, u32::MAX];
/// Damaged windows of a round, by width.
const DAMAGED: u32 = 400;
/// Steps are 82 at most.
const STEPS: u32 = 91;
/// The ticks that are looked back on where every tick is fed.
const WATCHED: u32 = 64;

/// The steps whose swap can be lost, and where each then leads.
const LOST: [(u32, u32); 5] = [(5, 8), (25, 15), (48, 39), (51, 39), (62, 0)];

/// What is wrong with a damaged window, in the order of its words.
const FAULTS: [&str; 9] = [
    "width out of range",
    "length not the width's",
    "more fed than places",
    "next place not the number fed",
    "next place none",
    "last count while none is fed",
    "a place above 1",
    "a place not fed",
    "none, the words are a window",
];

/// What was seen.
pub struct Windows {
    /// Feeds that were answered, by the places fed before: none, some, all.
    fed: [u64; 3],
    /// Counts at which a window went from the last number to 0.
    wraps: u64,
    /// Feeds refused with 24.
    out_of_turn: u64,
    /// Windows refused with 23, by what is wrong.
    faults: [u64; FAULTS.len()],
    /// Ticks of the other tests at the steps of `LOST`: lost, and not.
    ticks: [[u64; 2]; LOST.len()],
    /// The window that these ticks are fed to, and its last ticks.
    watch: Both,
    last: VecDeque<bool>,
    /// The most lost swaps that it answered.
    most: u32,
}

/// One window in two copies, one for each program.
struct Both {
    proved: Lent<u32>,
    second: Lent<u32>,
}

impl Both {
    fn over(words: &[u32]) -> Both {
        let lent = Lent::new(words);
        Both {
            proved: lent.clone(),
            second: lent,
        }
    }

    fn words(&self) -> &[u32] {
        self.second.words()
    }

    /// Makes a window of these words, whatever they hold; gives 0 or the refusal.
    fn fresh(&mut self, width: u32) -> u32 {
        let before = self.second.clone();
        let proved = ffi::window(self.proved.words_mut(), width);
        let second = window::window(self.second.words_mut(), width);
        assert_eq!(proved, second, "a window of {width}");
        self.compare(&before, second);
        if second == 0 {
            let zeros = self.words()[1..].iter().all(|&word| word == 0);
            assert!(self.words()[0] == width && zeros);
        }
        second
    }

    /// Feeds the window; gives the refusal or 0, and the lost swaps.
    fn feed(&mut self, count: u32, before: u32, after: u32) -> [u32; 2] {
        let words = self.second.clone();
        let proved = ffi::feed(self.proved.words_mut(), count, before, after);
        let second = window::feed(self.second.words_mut(), count, before, after);
        let about = || format!("{count}, {before} to {after}; {:?}", words.words());
        assert_eq!(halves(proved), halves(pair(second)), "{}", about());
        self.compare(&words, second.0);
        [second.0, second.1]
    }

    /// Both copies and their margins are the same, and after a refusal what they were.
    fn compare(&self, before: &Lent<u32>, refusal: u32) {
        if let Some(place) = self.proved.first_other(&self.second) {
            panic!("the programs differ at {place} of a window");
        }
        if refusal != 0 {
            assert!(self.second == *before, "a refusal wrote a window");
        }
    }
}

impl Default for Windows {
    fn default() -> Windows {
        let mut watch = Both::over(&[7; WATCHED as usize + WORDS]);
        assert_eq!(watch.fresh(WATCHED), 0);
        Windows {
            fed: [0; 3],
            wraps: 0,
            out_of_turn: 0,
            faults: Default::default(),
            ticks: Default::default(),
            watch,
            last: VecDeque::new(),
            most: 0,
        }
    }
}

/// A round: every width that is one and some that are none, every pair of steps, and damaged windows.
pub fn check(random: &mut Random, windows: &mut Windows) {
    for width in WIDTHS.into_iter().chain(NONE) {
        lengths(random, width);
    }
    for width in WIDTHS {
        windows.feeds(random, width);
        for _ in 0..DAMAGED.min(20_000 / width) {
            windows.damaged(random, width);
        }
    }
    windows.pairs(random);
    for width in [0, MAX_WIDTH + 1] {
        let mut words = vec![0; width as usize + WORDS];
        words[0] = width;
        windows.feed(&mut Both::over(&words), random.word(), 5, 8);
    }
}

/// Fresh windows over slices about the length that the width asks for.
fn lengths(random: &mut Random, width: u32) {
    let exact = width.min(2 * MAX_WIDTH) as usize + WORDS;
    for length in [0, 1, 3, 4, 5, exact - 1, exact, exact + 1] {
        let given = Both::over(&vec![random.word(); length]).fresh(width);
        let fits = (1..=MAX_WIDTH).contains(&width) && length == exact;
        assert_eq!(given, if fits { 0 } else { 23 }, "{width} over {length}");
    }
}

/// Whether a pair of steps is lost.
fn is_lost(before: u32, after: u32) -> bool {
    LOST.contains(&(before, after))
}

impl Windows {
    /// A feed; the refusal is what the words say.
    fn feed(&mut self, both: &mut Both, count: u32, before: u32, after: u32) -> [u32; 2] {
        let words = both.words().to_vec();
        let fault = fault(&words);
        let in_turn = || words[1] == 0 || count == words[3].wrapping_add(1);
        let refusal = match fault {
            None if in_turn() => 0,
            None => 24,
            Some(_) => 23,
        };
        let given = both.feed(count, before, after);
        assert_eq!(given[0], refusal, "{words:?}");
        match fault {
            Some(fault) => self.faults[fault] += 1,
            None => *self.faults.last_mut().expect("a last one") += 1,
        }
        self.out_of_turn += u64::from(refusal == 24);
        if refusal == 0 {
            let fed = [words[1] == 0, words[1] < words[0], true];
            let place = fed.iter().position(|&comes| comes).expect("the last");
            self.fed[place] += 1;
            self.wraps += u64::from(words[1] > 0 && count == 0);
        }
        given
    }

    /// Feeds a fresh window over the last number and past its width; now and then a count that does not follow.
    fn feeds(&mut self, random: &mut Random, width: u32) {
        let mut both = Both::over(&vec![random.word(); width as usize + WORDS]);
        assert_eq!(both.fresh(width), 0);
        let any = random.next() as u32;
        let mut count = random.pick(&[u32::MAX - width, u32::MAX - 1, u32::MAX, 0, any]);
        let mut last = VecDeque::new();
        let feeds = 2 * width.min(600) + width + 9;
        for _ in 0..feeds {
            let (before, after) = match random.below(3) {
                0 => random.pick(&LOST),
                1 => (random.pick(&LOST).0, random.below(STEPS)),
                _ => (random.below(STEPS), random.below(STEPS)),
            };
            if random.once_in(5) && !last.is_empty() {
                let off = random.pick(&[1, 2, 3, u32::MAX, u32::MAX - 1, 1 << 31]);
                self.feed(&mut both, count.wrapping_add(off), before, after);
            }
            last.push_back(is_lost(before, after));
            if last.len() > width as usize {
                last.pop_front();
            }
            let lost = last.iter().filter(|&&lost| lost).count() as u32;
            assert_eq!(self.feed(&mut both, count, before, after), [0, lost]);
            count = count.wrapping_add(1);
        }
    }

    /// Every pair of steps, and some that are none.
    fn pairs(&mut self, random: &mut Random) {
        let mut both = Both::over(&[0; 1 + WORDS]);
        assert_eq!(both.fresh(1), 0);
        let mut count = random.word();
        let any = [(); 500].map(|()| (random.word(), random.word()));
        let all = (0..STEPS).flat_map(|before| (0..STEPS).map(move |after| (before, after)));
        for (before, after) in all.chain(any) {
            let lost = is_lost(before, after).into();
            assert_eq!(self.feed(&mut both, count, before, after), [0, lost]);
            count = count.wrapping_add(1);
        }
    }

    /// A window as feeds leave it, with a word or two, or its length, changed.
    fn damaged(&mut self, random: &mut Random, width: u32) {
        let mut words = any_window(random, width);
        let count = words[3].wrapping_add(1);
        for _ in 0..1 + random.below(2) {
            let at = match random.below(6) {
                0 => WORDS as u32 + random.below(width),
                1 => WORDS as u32 + words[1] % width,
                place => place - 2,
            };
            let word = random.word();
            let near = [0, 1, 2, width - 1, width, width + 1, words[1], word];
            words[at as usize] = random.pick(&near);
        }
        match random.below(8) {
            0 => words.push(0),
            1 => words.truncate(words.len() - 1),
            2 => words.truncate(random.below(6) as usize),
            _ => {}
        }
        let any = random.word();
        let count = random.pick(&[count, count, count, any]);
        self.feed(&mut Both::over(&words), count, 5, random.pick(&[0, 8]));
    }

    /// A tick of the other tests that was made: its outcome says whether the compare of its swap matched, and the words
    /// tell the same. It is fed to the window of all such ticks; where others were left out, that is made fresh first.
    pub fn tick(
        &mut self,
        before: &[u32],
        after: &[u32],
        sizes: Sizes,
        task: u32,
        outcome: &Outcome,
    ) {
        let step = sizes.record(task) + record::STEP;
        let steps = [before[step], after[step]];
        let place = LOST.iter().position(|&(step, _)| step == outcome.step);
        let lost = place.is_some() && outcome.cause != "equal";
        if let Some(place) = place {
            self.ticks[place][usize::from(!lost)] += 1;
        }
        assert_eq!(is_lost(steps[0], steps[1]), lost, "{steps:?}");
        let count = after[header::TICKS];
        let (fed, last) = (self.watch.words()[1], self.watch.words()[3]);
        if fed > 0 && count != last.wrapping_add(1) {
            assert_eq!(self.watch.feed(count, steps[0], steps[1]), [24, 0]);
            assert_eq!(self.watch.fresh(WATCHED), 0);
            self.last.clear();
        }
        self.last.push_back(lost);
        if self.last.len() > WATCHED as usize {
            self.last.pop_front();
        }
        let wanted = self.last.iter().filter(|&&lost| lost).count() as u32;
        let given = self.watch.feed(count, steps[0], steps[1]);
        assert_eq!(given, [0, wanted]);
        self.most = self.most.max(wanted);
    }

    /// Prints the counts; gives what was to be seen and was not.
    pub fn report(&self) -> Vec<String> {
        let mut faults = Vec::new();
        let [none, some, all] = self.fed;
        println!("\nfeeds answered, with no place fed {none}, with some {some}, with all {all}");
        println!(
            "counts gone round to 0: {}; out of turn: {}",
            self.wraps, self.out_of_turn
        );
        let seen = [none, some, all, self.wraps, self.out_of_turn];
        if seen.contains(&0) {
            faults.push(format!("windows: {seen:?}"));
        }
        for (name, count) in FAULTS.iter().zip(self.faults) {
            println!("windows, {name:31} {count:>11}");
            if count == 0 {
                faults.push(format!("windows, {name}: never"));
            }
        }
        println!("{:40} {:>11} {:>11}", "ticks at step", "lost", "not");
        for ((step, _), [lost, not]) in LOST.iter().zip(self.ticks) {
            println!("{step:<40} {lost:>11} {not:>11}");
            if lost == 0 || not == 0 {
                faults.push(format!("ticks at {step}: {lost} lost, {not} not"));
            }
        }
        println!(
            "lost among {WATCHED} ticks of these, at most: {}",
            self.most
        );
        faults
    }
}

/// A window of some width as feeds leave it: so many places fed, any of them lost, after any count.
fn any_window(random: &mut Random, width: u32) -> Vec<u32> {
    let fed = match random.below(4) {
        0 => 0,
        1 => random.below(width),
        _ => width,
    };
    let next = if fed < width {
        fed
    } else {
        random.below(width)
    };
    let last = if fed == 0 { 0 } else { random.word() };
    let places = (0..width).map(|place| if place < fed { random.below(2) } else { 0 });
    let places: Vec<u32> = places.collect();
    [&[width, fed, next, last], &places[..]].concat()
}

/// What is wrong with the words as a window, by its place in `FAULTS`.
fn fault(words: &[u32]) -> Option<usize> {
    let [width, fed, next, last, places @ ..] = words else {
        return Some(1);
    };
    let tests = [
        !(1..=MAX_WIDTH).contains(width),
        places.len() != *width as usize,
        fed > width,
        fed < width && next != fed,
        next >= width,
        *fed == 0 && *last != 0,
        places.iter().any(|&place| place > 1),
        places.iter().skip(*fed as usize).any(|&place| place != 0),
    ];
    tests.iter().position(|&fails| fails)
}
