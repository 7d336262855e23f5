//! Runs the original and this repository's reader on the same inputs, in one process, and prints how their answers stand to
//! each other. It fails where they stand so that no class names it.

mod classes;
mod event;
mod inputs;
mod ours;
mod sample;
mod theirs;

use std::collections::BTreeMap;
use std::process::ExitCode;

use classes::{Class, Standing, stand};
use event::Event;
use theirs::{Outcome, Why};

/// What the original did, in a word or two.
fn did(outcome: &Outcome) -> &'static str {
    match outcome {
        Outcome::Accepted => "accepts",
        Outcome::Failed(_) => "fails",
        Outcome::Panicked(_) => "panics",
        Outcome::Endless => "goes on",
        Outcome::Aborted => "is aborted",
    }
}

/// The same in full, with the events that were drawn before.
fn in_full(outcome: &Outcome, events: usize) -> String {
    let what = match outcome {
        Outcome::Accepted => "accepts".into(),
        Outcome::Endless => return format!("goes on; events: more than {}", theirs::MOST_EVENTS),
        Outcome::Aborted => "is aborted for want of memory".into(),
        Outcome::Panicked(words) => format!("panics: {words}"),
        Outcome::Failed(Why::Byte { byte, .. }) => format!("fails at the byte {byte:02x}"),
        Outcome::Failed(Why::Magic) => "fails at the magic".into(),
        Outcome::Failed(Why::Depth) => "fails at its limit of levels".into(),
        Outcome::Failed(Why::Length { expected, count }) => format!("fails: end {expected} expected, count {count}"),
        Outcome::Failed(Why::Short) => "fails: the data end".into(),
        Outcome::Failed(Why::Source) => "fails: the source has a fault".into(),
        Outcome::Failed(Why::NotText) => "fails: no UTF-8".into(),
        Outcome::Failed(Why::Other(words)) => {
            format!("fails: {}", words.trim_start_matches("error while deserializing BSER: "))
        }
    };
    format!("{what}; events: {events}")
}

/// Inputs of one kind: how many, and the row of docs/DIFFERENCES.md about the smallest of them.
struct Kind {
    count: usize,
    smallest: Vec<u8>,
    row: String,
}

#[derive(Default)]
struct Tally {
    accepted: usize,
    refused: BTreeMap<u32, usize>,
    differ: BTreeMap<(Class, &'static str), Kind>,
    unknown: Vec<String>,
    unknowns: usize,
}

/// The bytes, and what stands there more than eight times in a row as `[02 03 00] x257`.
fn spaced(bytes: &[u8]) -> String {
    const LONGEST: usize = 160;
    let mut words = Vec::new();
    let mut rest = bytes;
    while !rest.is_empty() {
        let repeated = (1..=LONGEST.min(rest.len()))
            .map(|len| (len, rest.chunks_exact(len).take_while(|c| *c == &rest[..len]).count()))
            .find(|(_, times)| *times > 8);
        let taken = match repeated {
            Some((len, times)) => {
                words.push(format!("[{}] x{times}", spaced(&rest[..len])));
                len * times
            }
            None => {
                words.push(format!("{:02x}", rest[0]));
                1
            }
        };
        rest = &rest[taken..];
    }
    words.join(" ")
}

/// How many bytes the header has, if it ends within the input.
fn header_len(bytes: &[u8]) -> usize {
    match bytes.get(6) {
        Some(3) => 8,
        Some(4) => 9,
        Some(5) => 11,
        Some(6) => 15,
        _ => usize::MAX,
    }
}

impl Tally {
    fn note(&mut self, bytes: &[u8], ours: &ours::Answer, theirs: &theirs::Answer) {
        let in_body = ours.verdict.place >= header_len(bytes);
        match stand(&ours.verdict, in_body, &ours.events, &theirs.outcome, &theirs.events) {
            Standing::BothAccept => self.accepted += 1,
            Standing::BothRefuse => *self.refused.entry(ours.verdict.number).or_default() += 1,
            Standing::Differ(class) => {
                let kind = self.differ.entry((class, did(&theirs.outcome))).or_insert_with(|| Kind {
                    count: 0,
                    smallest: Vec::new(),
                    row: String::new(),
                });
                kind.count += 1;
                if kind.count == 1 || (bytes.len(), bytes) < (kind.smallest.len(), &kind.smallest[..]) {
                    kind.smallest = bytes.to_vec();
                    kind.row = format!(
                        "| {} | `{}` | {} | refusal {} at {}; events: {} |",
                        class.words(),
                        spaced(bytes),
                        in_full(&theirs.outcome, theirs.events.len()),
                        ours.verdict.number,
                        ours.verdict.place,
                        ours.events.len()
                    );
                }
            }
            Standing::Unknown => {
                self.unknowns += 1;
                if self.unknown.len() < 20 {
                    self.unknown.push(format!(
                        "{}\n  the original: {:?} after {:?}\n  here: {:?} after {:?}",
                        spaced(bytes), theirs.outcome, theirs.events, ours.verdict, ours.events
                    ));
                }
            }
        }
    }

    fn print(&self) {
        println!("both accept, with the same events: {}", self.accepted);
        println!("both refuse, for the same cause, after the same events:");
        for (number, count) in &self.refused {
            println!("  refusal {number}: {count}");
        }
        println!("this reader refuses, and the original does otherwise:");
        for ((class, did), kind) in &self.differ {
            println!("  {}; the original {did}: {}", class.words(), kind.count);
        }
        println!("the smallest of each:");
        for kind in self.differ.values() {
            println!("{}", kind.row);
        }
        println!("in no class: {}", self.unknowns);
        for words in &self.unknown {
            println!("{words}");
        }
    }
}

/// How many bytes each piece has at most, and the code of the fault behind them, 0 for a clean end.
const PIECES: [(usize, u16); 5] = [(1, 0), (2, 0), (3, 0), (64, 0), (3, 5)];

/// The original over a reader makes room for all that it asks for at once, and fills it. Up to this much it is run as it is.
const MOST_AT_ONCE: usize = 1 << 20;

const VALUES: usize = 20_000;
const DAMAGES: usize = 40;

struct Both {
    inputs: usize,
    slots: Vec<ours::Slot>,
    texts: Vec<u8>,
    slices: Tally,
    /// Where the two readers do over pieces what they do over a slice.
    same: usize,
    /// Where they do not.
    pieces: Tally,
    apart: usize,
    left_out: usize,
}

impl Both {
    fn new() -> Both {
        Both {
            inputs: 0,
            slots: vec![ours::Slot::default(); theirs::MOST_EVENTS],
            texts: vec![0; ours::TEXTS],
            slices: Tally::default(),
            same: 0,
            pieces: Tally::default(),
            apart: 0,
            left_out: 0,
        }
    }

    /// What the original does over pieces, unless that is left out.
    fn original(&mut self, bytes: &[u8], most: usize, ending: u16, over_slice: &[Event]) -> Option<theirs::Answer> {
        let at_once = theirs::seen(bytes).most;
        if at_once <= MOST_AT_ONCE || at_once > isize::MAX as usize {
            return Some(theirs::from_pieces(bytes, most, ending > 0));
        }
        // Room that there is takes long to fill, and whether there is room for more does not depend on the pieces.
        if at_once < theirs::MEMORY || most != 64 {
            self.left_out += 1;
            return None;
        }
        self.apart += 1;
        Some(theirs::Answer { outcome: theirs::from_pieces_apart(bytes, most), events: over_slice.to_vec() })
    }

    fn try_on(&mut self, bytes: &[u8]) {
        self.inputs += 1;
        let mut ours = ours::from_bytes(bytes, &mut self.slots);
        let mut theirs = theirs::from_bytes(bytes);
        self.slices.note(bytes, &ours, &theirs);
        ours.events = ours.events.into_iter().map(Event::without_place).collect();
        theirs.events = theirs.events.into_iter().map(Event::without_place).collect();
        for (most, ending) in PIECES {
            let Some(their_pieces) = self.original(bytes, most, ending, &theirs.events) else {
                continue;
            };
            let mut our_pieces = ours::from_pieces(bytes, most, ending, &mut self.slots, &mut self.texts);
            // Where a slice ends, a source with a fault has it.
            let awaited = |number: u32| if number == 3 && ending > 0 { 4 } else { number };
            if our_pieces.verdict.number == awaited(ours.verdict.number) && our_pieces.verdict.place == ours.verdict.place {
                our_pieces.verdict.first = ours.verdict.first;
                our_pieces.verdict.second = ours.verdict.second;
                let alike = match (&theirs.outcome, &their_pieces.outcome) {
                    (Outcome::Panicked(_), Outcome::Panicked(_)) => true,
                    (Outcome::Failed(Why::Short), Outcome::Failed(why)) if ending > 0 => *why == Why::Source,
                    (a, b) => a == b,
                };
                if our_pieces.events == ours.events && their_pieces.events == theirs.events && alike {
                    self.same += 1;
                    continue;
                }
            }
            self.pieces.note(bytes, &our_pieces, &their_pieces);
        }
    }
}

/// Prints both answers to one input.
fn show(bytes: &[u8], slots: &mut [ours::Slot]) {
    let print = |who: &str, outcome: String, events: &[event::Event]| {
        println!("{who}: {outcome}");
        for event in events.iter().take(64) {
            println!("  {}", event.printed());
        }
    };
    println!("{}", spaced(bytes));
    let theirs = theirs::from_bytes(bytes);
    print("the original", format!("{:?}", theirs.outcome), &theirs.events);
    let ours = ours::from_bytes(bytes, slots);
    print("this reader", format!("{:?}", ours.verdict), &ours.events);
}

fn main() -> ExitCode {
    std::panic::set_hook(Box::new(|_| {}));
    let arguments: Vec<String> = std::env::args().skip(1).collect();
    match arguments.first().map(String::as_str) {
        None => compare(),
        Some("sample") if arguments.len() == 3 => match sample::write(&arguments[1], &arguments[2]) {
            Ok(()) => ExitCode::SUCCESS,
            Err(error) => {
                eprintln!("compare: {error}");
                ExitCode::FAILURE
            }
        },
        Some("show") if arguments.len() > 1 => {
            let digits: String = arguments[1..].concat().split_whitespace().collect();
            let bytes: Option<Vec<u8>> =
                (0..digits.len()).step_by(2).map(|k| u8::from_str_radix(digits.get(k..k + 2)?, 16).ok()).collect();
            match bytes {
                Some(bytes) => {
                    show(&bytes, &mut vec![ours::Slot::default(); theirs::MOST_EVENTS]);
                    ExitCode::SUCCESS
                }
                None => {
                    eprintln!("compare: not hexadecimal: {digits}");
                    ExitCode::FAILURE
                }
            }
        }
        _ => {
            eprintln!("compare: without arguments, or `show HEX`, or `sample SCRIPTS ANSWERS`");
            ExitCode::FAILURE
        }
    }
}

fn compare() -> ExitCode {
    let mut both = Both::new();
    let mut before = 0;
    let mut group = |name: &str, both: &Both| {
        println!("{name}: {} inputs", both.inputs - before);
        before = both.inputs;
    };

    inputs::headers(|p| both.try_on(p));
    group("headers", &both);
    inputs::small_bodies(4, |p| both.try_on(p));
    group("every body of up to 4 bytes", &both);
    inputs::small_cuts(3, |p| both.try_on(p));
    group("cuts of every body of up to 3 bytes", &both);
    inputs::edges(|p| both.try_on(p));
    group("edges of the limits", &both);
    let mut chance = inputs::Chance::new(20200229);
    inputs::generated(&mut chance, VALUES, DAMAGES, |p| both.try_on(p));
    group(&format!("{VALUES} generated values, whole, cut and damaged"), &both);
    println!("{} inputs in all", both.inputs);

    println!("over a slice:");
    both.slices.print();
    println!("over a reader, in pieces of 1, 2, 3 and 64 bytes, and of 3 with a fault of the source behind them:");
    println!("both do what they do over a slice: {}", both.same);
    println!("runs of the original that ask for more than 2^20 bytes at once: {} made, {} left out", both.apart, both.left_out);
    println!("the others:");
    both.pieces.print();
    let unknowns = both.slices.unknowns + both.pieces.unknowns;
    if unknowns == 0 { ExitCode::SUCCESS } else { ExitCode::FAILURE }
}
