//! What a script of bench/scripts.py takes a program that is written for it by hand: the floor of bench/run. It prints what
//! ./replay prints of the script, in its order.
//!
//! As ./replay does, it reads all lines before it runs any. There is one thread and no lock, and no alert needs memory of
//! its own: label sets and times remain texts of the script. It relies on the form in which bench/scripts.py writes lines:
//! no blanks and no escapes, names in order, one thread, times in whole seconds of UTC, whose texts have the same order, and
//! one subscription, before all posts. So it is a floor and no program to use: at most other lines it panics.
//!
//!     floor <SCRIPT     prints the answer to each line, and the counts at the end
use std::collections::hash_map::{Entry, HashMap};
use std::hash::{BuildHasherDefault, Hasher};
use std::io::{self, Read, Write};
use std::ops::Range;

/// A time as it is written, from the year to the Z.
type Time = [u8; 20];

/// An alert, its label set and annotations from one brace to the other.
#[derive(Clone, Copy, Default)]
struct Alert<'a> {
    labels: &'a [u8],
    annotations: &'a [u8],
    start: Time,
    end: Time,
    generator: &'a [u8],
}

/// A line's command. The alerts of a post are some of all that are read.
enum Command {
    Post { at: Time, alerts: Range<usize> },
    Subscribe,
    Read,
}

/// Takes what comes before a quote, and the quote. It looks at eight bytes at once: the lowest bit found is of the first quote.
#[inline(always)]
fn before_quote<'a>(left: &mut &'a [u8]) -> &'a [u8] {
    const ONES: u64 = u64::MAX / 255;
    let (words, rest) = left.as_chunks::<8>();
    let found = words.iter().enumerate().find_map(|(at, word)| {
        let word = u64::from_le_bytes(*word) ^ (ONES * u64::from(b'"'));
        let found = word.wrapping_sub(ONES) & !word & (ONES << 7);
        (found != 0).then(|| 8 * at + found.trailing_zeros() as usize / 8)
    });
    let length = found.unwrap_or_else(|| left.len() - rest.len() + rest.iter().position(|it| *it == b'"').unwrap());
    let text = &left[..length];
    *left = &left[length + 1..];
    text
}

/// What is left of a script, and the alerts so far.
struct Script<'a> {
    left: &'a [u8],
    alerts: Vec<Alert<'a>>,
}

impl<'a> Script<'a> {
    /// Whether that byte is next, which is then taken.
    #[inline(always)]
    fn has(&mut self, byte: u8) -> bool {
        let rest = self.left.strip_prefix(&[byte]);
        self.left = rest.unwrap_or(self.left);
        rest.is_some()
    }

    #[inline(always)]
    fn expect(&mut self, byte: u8) {
        assert!(self.has(byte), "{} has to come before {} bytes", char::from(byte), self.left.len());
    }

    /// What is in quotes.
    #[inline(always)]
    fn text(&mut self) -> &'a [u8] {
        self.expect(b'"');
        before_quote(&mut self.left)
    }

    fn time(&mut self) -> Time {
        self.text().try_into().expect("whole seconds of UTC")
    }

    /// Takes an object. Each member's name is given away before its value is taken.
    #[inline(always)]
    fn members(&mut self, mut take: impl FnMut(&mut Self, &'a [u8])) {
        self.expect(b'{');
        loop {
            let name = self.text();
            self.expect(b':');
            take(self, name);
            if !self.has(b',') {
                return self.expect(b'}');
            }
        }
    }

    /// A label set, or annotations.
    #[inline(always)]
    fn set(&mut self) -> &'a [u8] {
        let (whole, mut last) = (self.left, &b""[..]);
        self.members(|script, name| {
            assert!(last < name && !script.text().is_empty());
            last = name;
        });
        &whole[..whole.len() - self.left.len()]
    }

    #[inline(always)]
    fn alert(&mut self) -> Alert<'a> {
        let mut alert = Alert::default();
        self.members(|script, name| match name {
            b"labels" => alert.labels = script.set(),
            b"annotations" => alert.annotations = script.set(),
            b"startsAt" => alert.start = script.time(),
            b"endsAt" => alert.end = script.time(),
            b"generatorURL" => alert.generator = script.text(),
            _ => panic!("an alert has another member"),
        });
        assert!(!alert.labels.is_empty() && alert.start <= alert.end);
        alert
    }

    fn body(&mut self) -> Range<usize> {
        let first = self.alerts.len();
        self.expect(b'[');
        loop {
            let alert = self.alert();
            self.alerts.push(alert);
            if !self.has(b',') {
                self.expect(b']');
                return first..self.alerts.len();
            }
        }
    }

    fn command(&mut self) -> Command {
        let (mut verb, mut at, mut alerts) = (&b""[..], Time::default(), 0..0);
        self.members(|script, name| match name {
            b"do" => verb = script.text(),
            b"thread" => script.expect(b'0'),
            b"at" => at = script.time(),
            b"sub" => _ = script.text(),
            b"body" => alerts = script.body(),
            _ => panic!("a line has another member"),
        });
        self.expect(b'\n');
        match verb {
            b"post" => Command::Post { at, alerts },
            b"subscribe" => Command::Subscribe,
            b"read" => Command::Read,
            _ => panic!("a line has another command"),
        }
    }
}

/// A hash: for each 16 bytes a product of two words, of which both halves count.
#[derive(Default)]
struct Products(u64);

impl Hasher for Products {
    fn write(&mut self, bytes: &[u8]) {
        let (chunks, rest) = bytes.as_chunks::<16>();
        let mut last = [0; 16];
        last[..rest.len()].copy_from_slice(rest);
        for chunk in chunks.iter().chain([&last]) {
            let words = u128::from_le_bytes(*chunk) ^ 0xa076_1d64_78bd_642f_e703_7ed1_a0b4_28db;
            let product = u128::from(self.0 ^ words as u64) * (words >> 64);
            self.0 = product as u64 ^ (product >> 64) as u64;
        }
    }

    fn write_usize(&mut self, number: usize) {
        self.0 ^= number as u64;
    }

    fn finish(&self) -> u64 {
        self.0
    }
}

/// All alerts, read and merged, and by each label set which of them is stored.
struct Store<'a> {
    alerts: Vec<Alert<'a>>,
    stored: HashMap<&'a [u8], usize, BuildHasherDefault<Products>>,
}

impl Store<'_> {
    /// Stores one of the alerts at that time, merged by Alertmanager's rule, and says which one is stored now.
    fn put(&mut self, posted: usize, now: &Time) -> usize {
        let alert = self.alerts[posted];
        let slot = match self.stored.entry(alert.labels) {
            Entry::Vacant(slot) => return *slot.insert(posted),
            Entry::Occupied(slot) => slot.into_mut(),
        };
        let old = self.alerts[*slot];
        *slot = posted;
        let is_within = |time| old.start < time && time < old.end;
        if is_within(alert.start) || is_within(alert.end) {
            let keeps_end = old.end > alert.end && (alert.end > *now || old.end <= *now);
            let end = if keeps_end { old.end } else { alert.end };
            *slot = self.alerts.len();
            self.alerts.push(Alert { start: alert.start.min(old.start), end, ..alert });
        }
        *slot
    }
}

/// Prints some words with a number after each.
fn print_counts(printed: &mut Vec<u8>, counts: &[(&str, usize)]) {
    for (words, count) in counts {
        printed.extend_from_slice(words.as_bytes());
        let (mut digits, mut from, mut left) = ([0; 20], 20, *count);
        while from == 20 || left > 0 {
            from -= 1;
            digits[from] = b'0' + (left % 10) as u8;
            left /= 10;
        }
        printed.extend_from_slice(&digits[from..]);
    }
}

/// Prints a label set or annotations.
fn print_set(printed: &mut Vec<u8>, mut set: &[u8]) {
    while set != b"}" {
        let [sign, name, _, value] = [(); 4].map(|()| before_quote(&mut set));
        for part in [sign, name, b"=\"", value, b"\""] {
            printed.extend_from_slice(part);
        }
    }
    printed.push(b'}');
}

/// Prints an alert that is read.
fn print_item(printed: &mut Vec<u8>, alert: &Alert) {
    printed.extend_from_slice(b" item ");
    print_set(printed, alert.labels);
    for part in [b" ", &alert.start[..], b" ", &alert.end, b" given "] {
        printed.extend_from_slice(part);
    }
    print_set(printed, alert.annotations);
}

/// What is printed of the commands.
fn run(commands: &[Command], alerts: Vec<Alert>) -> Vec<u8> {
    let stored = HashMap::with_capacity_and_hasher(alerts.len(), BuildHasherDefault::default());
    let mut store = Store { alerts, stored };
    let (mut printed, mut posts, mut log, mut next) = (Vec::new(), 0, Vec::new(), 0);
    for (number, command) in (2..).zip(commands) {
        print_counts(&mut printed, &[("", number)]);
        match command {
            Command::Post { at, alerts } => {
                print_counts(&mut printed, &[(" post valid ", alerts.len()), (" place ", posts)]);
                log.extend(alerts.clone().map(|posted| store.put(posted, at)));
                posts += 1;
            }
            Command::Subscribe => {
                assert!(log.is_empty());
                printed.extend_from_slice(b" subscribe lane 0 opening 0");
            }
            Command::Read if next < log.len() => {
                print_item(&mut printed, &store.alerts[log[next]]);
                next += 1;
            }
            Command::Read => printed.extend_from_slice(b" pending"),
        }
        printed.push(b'\n');
    }
    let stored = store.stored.len();
    print_counts(&mut printed, &[("end places ", posts), (" posts ", posts), (" stored ", stored)]);
    printed.push(b'\n');
    printed
}

fn main() {
    let mut text = Vec::new();
    io::stdin().read_to_end(&mut text).unwrap();
    assert!(std::str::from_utf8(&text).is_ok() && !text.contains(&b'\\'));
    let first = text.iter().position(|byte| *byte == b'\n').unwrap() + 1;
    let (mut script, mut commands) = (Script { left: &text[first..], alerts: Vec::new() }, Vec::new());
    while !script.left.is_empty() {
        commands.push(script.command());
    }
    io::stdout().write_all(&run(&commands, script.alerts)).unwrap();
}
