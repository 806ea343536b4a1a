//! Marking and routing in plain Rust, written for speed: 64 nodes to a word, and a route leg by leg. Std only.

type Place = (usize, usize); // row, column

/// The columns, and the rows, of either parity.
const EVEN: u64 = 0x5555_5555_5555_5555;
const ODD: u64 = !EVEN;
/// A leg's letters are written this many at a time, more than any leg has.
const WIDE: usize = 64;
/// The room that a route needs after its start: the longest, and what its last leg writes too much.
pub const ROOM: usize = 4034 + WIDE;

/// A mesh with its blocks marked.
pub struct Mesh {
    columns: usize,
    rows: usize,
    /// the bad nodes of row r at r + 1, a bit for each column; empty rows before and after
    across: [u64; 66],
    /// the bad nodes of column c at c + 2, a bit for each row; two empty columns before and after
    down: [u64; 68],
    /// of each row, the nodes one or two columns from a bad one
    near: [u64; 64],
}

/// The two nodes on either side of each, in its row.
fn beside(x: u64) -> u64 {
    x << 1 | x >> 1 | x << 2 | x >> 2
}

fn fill(out: &mut [u8], at: &mut usize, letter: u8, n: usize) {
    out[*at..*at + WIDE].fill(letter);
    *at += n;
}

impl Mesh {
    /// The faults of each row, a bit for each column; none if one lies where none is allowed. Sizes are 1 to 64.
    pub fn new(columns: usize, rows: usize, faults: &[u64; 64]) -> Option<Mesh> {
        let mut mesh = Mesh { columns, rows, across: [0; 66], down: [0; 68], near: [0; 64] };
        let allowed = if columns < 5 { 0 } else { (u64::MAX >> (68 - columns)) << 2 };
        for r in 0..rows {
            if faults[r] & !(if r == 0 || r + 1 == rows { 0 } else { allowed }) != 0 {
                return None;
            }
            mesh.across[r + 1] = faults[r];
        }
        while mesh.round() {}
        for r in 0..rows {
            for c in 0..columns {
                mesh.down[c + 2] |= (mesh.across[r + 1] >> c & 1) << r;
            }
            mesh.near[r] = beside(mesh.across[r + 1]);
        }
        Some(mesh)
    }

    /// One round of the marking; says whether it changed anything. No bit leaves the mesh: a bad node lies between others.
    fn round(&mut self) -> bool {
        let mut changed = 0;
        for i in 1..=self.rows {
            let x = self.across[i];
            let more = (self.across[i - 1] | self.across[i + 1]) & beside(x) | x << 1 & x >> 1;
            changed |= more & !x;
            self.across[i] |= more;
        }
        changed != 0
    }

    pub fn blocks(&self) -> usize {
        (1..=self.rows).map(|i| (self.across[i] & !(self.across[i] << 1) & !self.across[i - 1]).count_ones() as usize).sum()
    }

    fn has(&self, (r, c): Place) -> bool {
        r < self.rows && c < self.columns
    }

    /// Writes the letters of a route from `start` on and answers their number, or its refusal, 6 to 9. What stands in `out` after the
    /// letters may change.
    pub fn route(&self, source: Place, destination: Place, out: &mut [u8], start: usize) -> Result<usize, u8> {
        let (mut r, mut c) = source;
        let (dr, dc) = destination;
        if !self.has(source) || !self.has(destination) {
            return Err(6);
        }
        let row = self.across[r + 1];
        if (row >> c | self.across[dr + 1] >> dc) & 1 != 0 {
            return Err(7);
        }
        if self.near[dr] >> dc & 1 != 0 {
            return Err(8);
        }
        if (row << 1 & ODD) >> c & 1 != 0 && (r != dr || dc < c) {
            return Err(9);
        }
        let mut at = start;
        let mut last = b'W'; // W for none, which is the same to every rule
        loop {
            if r != dr {
                // rules 4 and 6: on in the row to a column of the right parity where the node toward the destination's row is free
                let next = if r < dr { self.across[r + 2] } else { self.across[r] };
                if last == b'E' {
                    let n = ((!next & ODD) >> c).trailing_zeros() as usize;
                    fill(out, &mut at, b'E', n);
                    c += n;
                } else {
                    let n = ((!next & EVEN) << (63 - c)).leading_zeros() as usize;
                    fill(out, &mut at, b'W', n);
                    c -= n;
                }
                // rule 5: in the column as far as the destination's row or a block
                if r < dr {
                    let free = (self.down[c + 2] >> r).trailing_zeros() as usize - 1;
                    let n = free.min(dr - r);
                    last = b'N';
                    fill(out, &mut at, last, n);
                    r += n;
                } else {
                    let free = (self.down[c + 2] << (63 - r)).leading_zeros() as usize - 1;
                    let n = free.min(r - dr);
                    last = b'S';
                    fill(out, &mut at, last, n);
                    r -= n;
                }
                if r != dr {
                    last = b'W';
                    fill(out, &mut at, last, 1);
                    c -= 1;
                    continue;
                }
            }
            // rule 2: in the row as far as the destination or the stop before a block; the wall is where a packet is stopped in its column
            let (wall, side, n);
            if dc > c {
                let free = (self.across[r + 1] >> c).trailing_zeros() as usize;
                if dc - c < free {
                    fill(out, &mut at, b'E', dc - c);
                    return Ok(at - start);
                }
                n = free - if free > 1 && (c + free) % 2 == 1 { 2 } else { 1 };
                side = b'E';
                fill(out, &mut at, side, n);
                c += n;
                wall = self.down[c + 3] | if c % 2 == 1 { self.down[c + 4] } else { 0 };
            } else {
                let free = (self.across[r + 1] << (63 - c)).leading_zeros() as usize;
                if c - dc < free {
                    fill(out, &mut at, b'W', c - dc);
                    return Ok(at - start);
                }
                n = free - if free > 1 && (c - free) % 2 == 0 { 2 } else { 1 };
                side = b'W';
                fill(out, &mut at, side, n);
                c -= n;
                wall = self.down[c + 1] | if c % 2 == 0 { self.down[c] } else { 0 };
            }
            // rules 2 and 3: along the wall to its end, and one hop to the side
            if n == 0 && last == b'S' {
                let n = (wall << (63 - r)).leading_ones() as usize;
                fill(out, &mut at, b'S', n);
                r -= n;
            } else {
                let n = (wall >> r).trailing_ones() as usize;
                fill(out, &mut at, b'N', n);
                r += n;
            }
            last = side;
            fill(out, &mut at, last, 1);
            c = if side == b'E' { c + 1 } else { c - 1 };
        }
    }
}
