//! The reader of this repository, through the static libraries that are made of drain_slice.txt, drain_reader.txt, skip_slice.txt
//! and skip_reader.txt. Each answers how many events have passed where the table is accepted, and else 0.

#[link(name = "drain_slice", kind = "static")]
unsafe extern "C" {
    fn timing_drain_slice(table: *const u8, length: usize) -> usize;
}

#[link(name = "drain_reader", kind = "static")]
unsafe extern "C" {
    fn timing_drain_reader(table: *const u8, length: usize, text: *mut u8, room: usize) -> usize;
}

#[link(name = "skip_slice", kind = "static")]
unsafe extern "C" {
    fn timing_skip_slice(table: *const u8, length: usize) -> usize;
}

#[link(name = "skip_reader", kind = "static")]
unsafe extern "C" {
    fn timing_skip_reader(table: *const u8, length: usize) -> usize;
}

pub fn drain_slice(table: &[u8]) -> usize {
    // SAFETY: a slice is no null pointer, and its bytes stay as they are.
    unsafe { timing_drain_slice(table.as_ptr(), table.len()) }
}

pub fn drain_reader(table: &[u8], text: &mut [u8]) -> usize {
    // SAFETY: the same; and no one else looks at the buffer.
    unsafe { timing_drain_reader(table.as_ptr(), table.len(), text.as_mut_ptr(), text.len()) }
}

pub fn skip_slice(table: &[u8]) -> usize {
    // SAFETY: as for `drain_slice`.
    unsafe { timing_skip_slice(table.as_ptr(), table.len()) }
}

pub fn skip_reader(table: &[u8]) -> usize {
    // SAFETY: as for `drain_slice`.
    unsafe { timing_skip_reader(table.as_ptr(), table.len()) }
}
