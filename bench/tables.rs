//! The tables: one template each, with a header and every length in 32 bits.

/// How many rows and columns a table has.
#[derive(Clone, Copy)]
pub struct Shape {
    pub rows: usize,
    pub columns: usize,
}

impl Shape {
    /// How many events the table has: the array's two, and of each row its two and a key and a value for each cell.
    pub fn events(self) -> usize {
        2 + self.rows * (2 + 2 * self.columns)
    }
}

fn length(out: &mut Vec<u8>, n: usize) {
    out.push(5);
    out.extend(u32::try_from(n).expect("a length of 31 bits").to_ne_bytes());
}

fn short_bytes(out: &mut Vec<u8>, bytes: &[u8]) {
    out.extend([2, 3, u8::try_from(bytes.len()).expect("a short string")]);
    out.extend(bytes);
}

/// Cells in the even columns are integers of 16 bits, and those in the odd ones byte strings of 3 to 10 bytes. One in
/// sixteen is a gap.
fn cell(out: &mut Vec<u8>, row: usize, column: usize) {
    let mixed = (row * 31 + column * 17).wrapping_mul(2654435761) >> 7;
    if mixed % 16 == 0 {
        out.push(0x0c);
    } else if column % 2 == 0 {
        out.push(4);
        out.extend((mixed as i16).to_ne_bytes());
    } else {
        short_bytes(out, &b"cell-bytes"[..3 + mixed % 8]);
    }
}

pub fn table(shape: Shape) -> Vec<u8> {
    let mut body = vec![0x0b, 0];
    length(&mut body, shape.columns);
    for column in 0..shape.columns {
        short_bytes(&mut body, format!("column{column}").as_bytes());
    }
    length(&mut body, shape.rows);
    for row in 0..shape.rows {
        for column in 0..shape.columns {
            cell(&mut body, row, column);
        }
    }
    let mut out = vec![0, 2, 0, 0, 0, 0];
    length(&mut out, body.len());
    out.extend(body);
    out
}
