//! The reader of this repository: over a slice through the static library that is made of crates/firmware, and over pieces, which it
//! copies, through the one that is made of pieces.txt.

use std::mem::size_of;

use crate::event::{Event, Part};

#[repr(C)]
#[derive(Clone, Copy, Debug, PartialEq, Eq)]
pub struct Verdict {
    pub number: u32,
    pub layer: u32,
    pub place: usize,
    pub first: usize,
    pub second: usize,
    pub events: usize,
    pub taken: usize,
}

#[repr(C)]
#[derive(Clone, Copy, Default)]
pub struct Slot {
    kind: u32,
    width: u32,
    value: u64,
    place: usize,
    length: usize,
}

const _: () = assert!(size_of::<Verdict>() == 48 && size_of::<Slot>() == 32);

#[link(name = "firmware", kind = "static")]
unsafe extern "C" {
    fn yieldnext_events(table: *const u8, length: usize, slots: *mut Slot, count: usize) -> Verdict;
}

/// What came of a PDU in pieces.
#[repr(C)]
#[derive(Clone, Copy, Debug, PartialEq, Eq)]
struct Outcome {
    number: usize,
    place: usize,
    events: usize,
    taken: usize,
}

#[link(name = "comparing", kind = "static")]
unsafe extern "C" {
    fn comparing_pieces(
        bytes: *const u8,
        length: usize,
        most: usize,
        ending: u16,
        slots: *mut Slot,
        count: usize,
        texts: *mut u8,
        room: usize,
    ) -> Outcome;
}

pub struct Answer {
    pub verdict: Verdict,
    pub events: Vec<Event>,
}

fn event(bytes: &[u8], slot: &Slot) -> Event {
    let part = || Part { bytes: bytes[slot.place..slot.place + slot.length].to_vec(), place: Some(slot.place) };
    match slot.kind {
        1 => Event::ArrayBegin,
        2 => Event::ArrayEnd,
        3 => Event::MapBegin,
        4 => Event::MapEnd,
        5 => Event::Key(part()),
        6 => Event::Int(slot.width, slot.value as i64),
        7 => Event::Real(slot.value),
        8 => Event::Bytes(part()),
        9 => Event::Text(part()),
        10 => Event::True,
        11 => Event::False,
        12 => Event::Null,
        13 => Event::Absent,
        other => panic!("an event of no kind: {other}"),
    }
}

/// The slots are the caller's, so that they are made once.
pub fn from_bytes(bytes: &[u8], slots: &mut [Slot]) -> Answer {
    // SAFETY: a slice is aligned and no null pointer, its bytes stay as they are, and no one else looks at the slots.
    let verdict = unsafe { yieldnext_events(bytes.as_ptr(), bytes.len(), slots.as_mut_ptr(), slots.len()) };
    assert!(verdict.events <= slots.len(), "too few slots");
    Answer { verdict, events: slots[..verdict.events].iter().map(|s| event(bytes, s)).collect() }
}

/// How many bytes the texts of a PDU have room for, all together.
pub const TEXTS: usize = 1 << 16;

/// The same over a reader that copies; it does not tell what a refusal keeps, nor its layer.
pub fn from_pieces(bytes: &[u8], most: usize, ending: u16, slots: &mut [Slot], texts: &mut [u8]) -> Answer {
    // SAFETY: as above, and of the texts as of the slots.
    let came = unsafe {
        comparing_pieces(
            bytes.as_ptr(),
            bytes.len(),
            most,
            ending,
            slots.as_mut_ptr(),
            slots.len(),
            texts.as_mut_ptr(),
            texts.len(),
        )
    };
    assert!(came.events <= slots.len(), "too few slots");
    let verdict = Verdict {
        number: came.number as u32,
        layer: 0,
        place: came.place,
        first: 0,
        second: 0,
        events: came.events,
        taken: came.taken,
    };
    let events = slots[..came.events].iter().map(|s| event(texts, s).without_place()).collect();
    Answer { verdict, events }
}
