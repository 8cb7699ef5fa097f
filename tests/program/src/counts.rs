//! How often each outcome was seen, and which of them are missing.

use std::collections::BTreeMap;

/// What lines can reach. 2, 4, 6 and 11 to 15 are not among them: a line makes its own table and spells its operation.
const REACHED: [(&str, &[&str]); 5] = [
    ("start", &["(ok)", "(refused 1)"]),
    (
        "begin",
        &[
            "(ok)",
            "(refused 3)",
            "(refused 5)",
            "(refused 7)",
            "(refused 8)",
            "(refused 16)",
        ],
    ),
    (
        "tick",
        &[
            "(going)",
            "(pushed)",
            "(bag ..)",
            "(empty)",
            "(full)",
            "(yes)",
            "(no)",
            "(refused 3)",
            "(refused 5)",
            "(refused 9)",
            "(refused 10)",
        ],
    ),
    ("lane", &["(lane)", "(lane ..)", "(refused 3)"]),
    ("other", &["(unread)"]),
];

/// What was seen.
pub struct Counts {
    /// By form and outcome.
    seen: BTreeMap<(&'static str, String), usize>,
    lines: usize,
    most_bags: usize,
    /// Pushes with nine, ten and eleven digits, and such of them as were read.
    widths: [[usize; 2]; 3],
    /// Pushes of ten zeros, refused with 7.
    zeros: usize,
    /// Tags popped that are no word of 32 bits.
    large: usize,
}

impl Counts {
    pub fn new() -> Counts {
        Counts {
            seen: BTreeMap::new(),
            lines: 0,
            most_bags: 0,
            widths: Default::default(),
            zeros: 0,
            large: 0,
        }
    }

    /// The lines so far.
    pub fn lines(&self) -> usize {
        self.lines
    }

    /// Counts the lines of an input by their answers.
    pub fn add(&mut self, input: &[u8], answers: &[u8]) {
        let line_feed = |byte: &u8| *byte == b'\n';
        for (line, answer) in input.split(line_feed).zip(answers.split(line_feed)) {
            if answer.is_empty() {
                break; // after the last line feed
            }
            let answer = String::from_utf8_lossy(answer);
            self.add_tags(line, &answer);
            let outcome = match answer.split_once(' ') {
                Some((name @ ("(lane" | "(bag"), _)) => format!("{name} ..)"),
                _ => answer.to_string(),
            };
            if outcome == "(lane ..)" {
                self.most_bags = self.most_bags.max(answer.split(' ').count() - 1);
            }
            let form = if outcome == "(unread)" {
                "other"
            } else {
                form(line)
            };
            *self.seen.entry((form, outcome)).or_default() += 1;
            self.lines += 1;
        }
    }

    /// Counts what a line shows of tags.
    fn add_tags(&mut self, line: &[u8], answer: &str) {
        if let Some(tag) = pushed(line) {
            let read = answer != "(unread)";
            if let Some(counts) = self.widths.get_mut(tag.len().wrapping_sub(9)) {
                counts[0] += 1;
                counts[1] += usize::from(read);
            }
            self.zeros += usize::from(tag == b"0000000000" && answer == "(refused 7)");
        }
        let popped = answer.strip_prefix("(bag ");
        self.large += usize::from(popped.is_some_and(|tag| tag > "4294967295)"));
    }

    /// Prints all counts; gives what was to be seen and was not, or seen and was not to be.
    pub fn report(&self) -> Vec<String> {
        let mut faults = Vec::new();
        for (form, outcomes) in REACHED {
            let counts: Vec<String> = outcomes
                .iter()
                .map(|outcome| {
                    let count = self.seen.get(&(form, outcome.to_string()));
                    let count = count.copied().unwrap_or(0);
                    if count == 0 {
                        faults.push(format!("never seen: {outcome} to a {form} line"));
                    }
                    format!("{outcome} {count}")
                })
                .collect();
            println!("{form:5} gave {}", counts.join(", "));
        }
        for (form, outcome) in self.seen.keys() {
            let listed = |(name, outcomes): &(&str, &[&str])| {
                name == form && outcomes.contains(&outcome.as_str())
            };
            if !REACHED.iter().any(listed) {
                faults.push(format!("seen: {outcome} to a {form} line"));
            }
        }
        let Counts {
            widths: [[nine, nine_read], [ten, ten_read], [eleven, eleven_read]],
            zeros,
            large,
            ..
        } = self;
        println!("pushes with 9 digits {nine}, 10 {ten}, 11 {eleven}; read {nine_read}, {ten_read}, {eleven_read}");
        println!("ten zeros refused {zeros}; tags above 4,294,967,295 popped {large}");
        if [nine, ten_read, eleven, zeros, large].contains(&&0) {
            faults.push(String::from(
                "not every width of a push or size of a tag was seen",
            ));
        }
        if nine_read + eleven_read > 0 {
            faults.push(String::from("a push with 9 or 11 digits was read"));
        }
        println!("the longest lane had {} bags", self.most_bags);
        if self.most_bags < 1000 {
            faults.push(String::from("no lane of 1,000 bags was seen"));
        }
        faults
    }
}

/// The digits of a line that is a push but for their number.
fn pushed(line: &[u8]) -> Option<&[u8]> {
    let text = line.strip_suffix(b"))")?;
    let digits = text.iter().rev().take_while(|byte| byte.is_ascii_digit());
    let (form, tag) = text.split_at(text.len() - digits.count());
    let is_push = form.ends_with(b" (push left ") || form.ends_with(b" (push right ");
    is_push.then_some(tag)
}

/// The form of a line that was read.
fn form(line: &[u8]) -> &'static str {
    for (name, _) in REACHED {
        if line
            .get(1..)
            .is_some_and(|rest| rest.starts_with(name.as_bytes()))
        {
            return name;
        }
    }
    "other"
}
