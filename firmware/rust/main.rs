//! Reads table files, all PDUs of each, and prints what came of them. Then it reads the first file again: with too few slots,
//! without its last byte, and with another first byte.

use std::mem::{offset_of, size_of};

/// What firmware/yieldnext.h declares, which has the comments.
mod yieldnext {
    #[repr(C)]
    #[derive(Clone, Copy)]
    pub struct Verdict {
        pub number: u32,
        pub layer: u32,
        pub place: usize,
        pub first: usize,
        pub second: usize,
        pub events: usize,
        pub taken: usize,
    }

    #[repr(C)]
    #[derive(Clone, Copy, Default)]
    pub struct Event {
        pub kind: u32,
        pub width: u32,
        pub value: u64,
        pub place: usize,
        pub length: usize,
    }

    mod c {
        use super::{Event, Verdict};

        #[link(name = "firmware", kind = "static")]
        unsafe extern "C" {
            pub fn yieldnext_check(table: *const u8, length: usize) -> Verdict;
            pub fn yieldnext_events(table: *const u8, length: usize, slots: *mut Event, count: usize) -> Verdict;
            pub safe fn yieldnext_decoder_size() -> usize;
        }
    }

    pub fn check(table: &[u8]) -> Verdict {
        // SAFETY: a slice is no null pointer, and its bytes stay as they are during the call.
        unsafe { c::yieldnext_check(table.as_ptr(), table.len()) }
    }

    pub fn events(table: &[u8], slots: &mut [Event]) -> Verdict {
        // SAFETY: the same; and a mutable slice is aligned, and no one else looks at it.
        unsafe { c::yieldnext_events(table.as_ptr(), table.len(), slots.as_mut_ptr(), slots.len()) }
    }

    pub fn decoder_size() -> usize {
        c::yieldnext_decoder_size()
    }
}

use yieldnext::{Event, Verdict};

const _: () = assert!(size_of::<usize>() == 8);
const _: () = assert!(size_of::<Verdict>() == 48);
const _: () = assert!(offset_of!(Verdict, number) == 0 && offset_of!(Verdict, layer) == 4);
const _: () = assert!(offset_of!(Verdict, place) == 8 && offset_of!(Verdict, first) == 16);
const _: () = assert!(offset_of!(Verdict, second) == 24 && offset_of!(Verdict, events) == 32);
const _: () = assert!(offset_of!(Verdict, taken) == 40);
const _: () = assert!(size_of::<Event>() == 32);
const _: () = assert!(offset_of!(Event, kind) == 0 && offset_of!(Event, width) == 4);
const _: () = assert!(offset_of!(Event, value) == 8 && offset_of!(Event, place) == 16);
const _: () = assert!(offset_of!(Event, length) == 24);

const KINDS: [&str; 14] = [
    "none", "array begin", "array end", "map begin", "map end", "key", "integer", "real", "bytes", "text", "true", "false",
    "null", "absent",
];

const MOST_EVENTS: usize = 256;
const FEW_EVENTS: usize = 3;

fn print_verdict(what: &str, v: &Verdict) {
    let Verdict { number, layer, place, first, second, events, taken } = v;
    if *number == 0 {
        println!("{what}: accepted, {events} events, {taken} bytes");
    } else {
        println!(
            "{what}: refusal {number} of layer {layer} at byte {place}, {first}, {second}, after {events} events, {taken} bytes"
        );
    }
}

fn shown(bytes: &[u8]) -> String {
    let mut text = String::new();
    for &b in bytes {
        match b {
            b'"' | b'\\' => text += &format!("\\x{b:02x}"),
            b' '..=b'~' => text.push(char::from(b)),
            _ => text += &format!("\\x{b:02x}"),
        }
    }
    text
}

fn print_event(table: &[u8], e: &Event) {
    let name = KINDS[e.kind as usize];
    match name {
        "integer" => println!("  {name} of {} bits: {}", e.width, e.value as i64),
        "real" => println!("  {name}: {:016x}", e.value),
        "key" | "bytes" | "text" => {
            println!("  {name} at {}: \"{}\"", e.place, shown(&table[e.place..e.place + e.length]))
        }
        _ => println!("  {name}"),
    }
}

/// Reads one PDU, prints it, and answers how many bytes it takes, if it is accepted.
fn read_pdu(what: &str, table: &[u8]) -> Option<usize> {
    let mut slots = [Event::default(); MOST_EVENTS];
    let v = yieldnext::events(table, &mut slots);
    print_verdict(what, &v);
    for e in slots.iter().take(v.events) {
        print_event(table, e);
    }
    (v.number == 0).then_some(v.taken)
}

fn read_again(mut table: Vec<u8>) {
    let mut slots = [Event { kind: u32::MAX, ..Event::default() }; FEW_EVENTS + 1];
    let v = yieldnext::events(&table, &mut slots[..FEW_EVENTS]);
    print_verdict("too few slots", &v);
    for e in &slots[..FEW_EVENTS] {
        print_event(&table, e);
    }
    println!("  the next slot is {}", if slots[FEW_EVENTS].kind == u32::MAX { "as it was" } else { "written" });
    print_verdict("one byte less", &yieldnext::check(&table[..table.len() - 1]));
    table[0] = b'B';
    print_verdict("another first byte", &yieldnext::check(&table));
}

fn main() -> std::io::Result<()> {
    println!("a decoder has {} bytes", yieldnext::decoder_size());
    let paths: Vec<String> = std::env::args().skip(1).collect();
    for path in &paths {
        let bytes = std::fs::read(path)?;
        let mut rest = &bytes[..];
        while !rest.is_empty() {
            let Some(taken) = read_pdu(path, rest) else {
                break;
            };
            rest = &rest[taken..];
        }
    }
    if let Some(path) = paths.first() {
        read_again(std::fs::read(path)?);
    }
    Ok(())
}
