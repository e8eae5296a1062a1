//! Dots: painting a row on the page, and counting.

use crate::measure::Measure;

/// Paints `row`: each set bit becomes a square of `size` dots, the first from
/// dot (`left`, `top`), clipped to the page; other dots stay. The page is
/// `height` rows of `row_bytes` bytes, high bit leftmost. `size` is 1 to 4
/// (300 / resolution); nothing is painted for any other.
pub fn paint_row(
    page: &mut [u8],
    row_bytes: usize,
    height: usize,
    row: &[u8],
    left: usize,
    top: usize,
    size: usize,
) {
    // No page row is reached below the page's end, however wide the row.
    if row_bytes == 0 || top >= height || !(1..=4).contains(&size) {
        return;
    }
    let line = widened_line(row_bytes, row, left, size);
    let page_rows = page.chunks_exact_mut(row_bytes).take(height);
    for page_row in page_rows.skip(top).take(size) {
        for (cell, byte) in page_row.iter_mut().zip(&line) {
            *cell |= byte;
        }
    }
}

/// One page row as the raster row paints it. The page's width is a whole
/// number of bytes, so what falls beyond the last byte is what is clipped.
fn widened_line(row_bytes: usize, row: &[u8], left: usize, size: usize) -> Vec<u8> {
    let mut line = vec![0u8; row_bytes];
    let widened = match WIDENED.get(size) {
        Some(found) => found,
        None => {
            return line;
        }
    };
    let shift = left % 8;
    let mut cells = line.iter_mut().skip(left / 8);
    // Bits not yet written: always `shift` of them between two bytes.
    let mut bits: u64 = 0;
    for &byte in row {
        bits = bits << (8 * size) | widened[usize::from(byte)];
        for part in (0..size).rev() {
            let cell = match cells.next() {
                Some(found) => found,
                None => {
                    return line;
                }
            };
            *cell = (bits >> (8 * part + shift)) as u8;
        }
        bits &= (1 << shift) - 1;
    }
    if let Some(cell) = cells.next() {
        *cell = (bits << (8 - shift)) as u8;
    }
    line
}

/// Every byte at every size: each of its bits `size` times, in the low
/// 8 x size bits.
static WIDENED: [[u64; 256]; 5] = widened_bytes();

const fn widened_bytes() -> [[u64; 256]; 5] {
    let mut table = [[0; 256]; 5];
    let mut size = 1;
    while size <= 4 {
        let square = (1u64 << size) - 1;
        let mut byte = 0;
        while byte < 256 {
            let mut place = 0;
            while place < 8 {
                if byte >> place & 1 == 1 {
                    table[size][byte] |= square << (place * size);
                }
                place += 1;
            }
            byte += 1;
        }
        size += 1;
    }
    table
}

/// Dots set in these bytes.
pub fn count_dots(bytes: &[u8]) -> u64 {
    bytes.iter().map(|byte| u64::from(byte.count_ones())).sum()
}

/// A lent page buffer, together with what is known of its rows: a page that is
/// zeroed again and again (each run on an unused page does that first) costs
/// only the rows that were painted since.
pub struct Sheet<'a> {
    bytes: &'a mut [u8],
    /// None: nothing is known, the whole page may hold dots.
    painted: Option<PaintedRows>,
}

struct PaintedRows {
    is_painted: Vec<bool>,
    rows: Vec<usize>,
}

impl<'a> Sheet<'a> {
    /// A buffer of which nothing is known.
    pub fn new(bytes: &'a mut [u8]) -> Sheet<'a> {
        Sheet {
            bytes,
            painted: None,
        }
    }

    /// The length of the lent buffer, which may be more than the page.
    pub fn length(&self) -> usize {
        self.bytes.len()
    }

    /// The page's W/8 x H bytes.
    pub fn page(&self, measure: &Measure) -> &[u8] {
        self.bytes.get(..measure.page_bytes()).unwrap_or(self.bytes)
    }

    /// Zeroes the page, W/8 x H bytes and no more.
    pub fn zero(&mut self, measure: &Measure) {
        let row_bytes = measure.row_bytes();
        match &mut self.painted {
            Some(painted) => {
                for row in painted.rows.drain(..) {
                    zero_row(self.bytes, row, row_bytes);
                    if let Some(flag) = painted.is_painted.get_mut(row) {
                        *flag = false;
                    }
                }
            }
            None => {
                for byte in self.bytes.iter_mut().take(measure.page_bytes()) {
                    *byte = 0;
                }
                self.painted = Some(PaintedRows {
                    is_painted: vec![false; measure.height() as usize],
                    rows: Vec::new(),
                });
            }
        }
    }

    /// Paints a row, see [`paint_row`].
    pub fn paint(&mut self, measure: &Measure, row: &[u8], left: usize, top: usize, size: usize) {
        let height = measure.height() as usize;
        if let Some(painted) = &mut self.painted {
            for page_row in top..height.min(top + size) {
                match painted.is_painted.get_mut(page_row) {
                    Some(flag) if !*flag => {
                        *flag = true;
                        painted.rows.push(page_row);
                    }
                    _ => {}
                }
            }
        }
        paint_row(
            self.bytes,
            measure.row_bytes(),
            height,
            row,
            left,
            top,
            size,
        );
    }

    /// Dots set on the page.
    pub fn dots(&self, measure: &Measure) -> u64 {
        let row_bytes = measure.row_bytes();
        match &self.painted {
            None => count_dots(self.page(measure)),
            Some(painted) => painted
                .rows
                .iter()
                .filter_map(|row| self.bytes.get(row * row_bytes..(row + 1) * row_bytes))
                .map(count_dots)
                .sum(),
        }
    }
}

fn zero_row(bytes: &mut [u8], row: usize, row_bytes: usize) {
    if let Some(cells) = bytes.get_mut(row * row_bytes..(row + 1) * row_bytes) {
        cells.fill(0);
    }
}
