//! Random maps, places and networks.
use crate::lent::Input;
use crate::plain_boxes::{fault_boxes, merge};
use crate::plain_mesh::{Block, Checked, Mesh, Place};
use crate::random::Random;
use std::fmt;

/// A mesh and its map, and what the plain mesh makes of it.
pub struct Case {
    pub columns: u32,
    pub rows: u32,
    pub map: Input<u8>,
    pub mesh: Checked,
    pub widened: Checked, // with a column more in the west: there the first network goes as the second does here
    pub blocks: Vec<Block>,
}

impl fmt::Debug for Case {
    fn fmt(&self, f: &mut fmt::Formatter) -> fmt::Result {
        write!(f, "columns {} rows {} map {:?}", self.columns, self.rows, self.map.given())
    }
}

impl Case {
    fn new(columns: u32, rows: u32, map: &[u8]) -> Case {
        let mesh = Mesh::new(columns, rows, map);
        let mut blocks = vec![];
        if let Ok(mesh) = &mesh {
            blocks = mesh.blocks();
            check_blocks(columns, map, mesh.marks(), &blocks);
        }
        let widened = mesh.as_ref().map(Mesh::widened).map_err(|why| *why);
        Case { columns, rows, map: Input::new(map), mesh, widened, blocks }
    }

    /// The map's refusal, or 0.
    pub fn refusal(&self) -> u32 {
        self.mesh.as_ref().err().copied().unwrap_or(0)
    }

    /// How many bytes of the map are those of a fault.
    pub fn faults(&self) -> usize {
        self.map.given().iter().filter(|&&x| x == 1).count()
    }

    pub fn without_faults(columns: u32, rows: u32) -> Case {
        Case::new(columns, rows, &vec![0; (columns * rows) as usize])
    }

    /// Faults at some of the places where they are allowed, by row and column.
    pub fn chosen(columns: usize, rows: usize, mut is_fault: impl FnMut(usize, usize) -> bool) -> Case {
        let mut map = vec![0; columns * rows];
        for row in 1..rows - 1 {
            for column in 2..columns - 2 {
                map[row * columns + column] = is_fault(row, column) as u8;
            }
        }
        Case::new(columns as u32, rows as u32, &map)
    }

    pub fn random(rng: &mut Random, columns: usize, rows: usize) -> Case {
        let mut map = vec![0u8; columns * rows];
        if columns >= 5 && rows >= 3 {
            let (w, h) = (columns - 4, rows - 2);
            let faults = match rng.below(9) {
                0 => 0,
                8 => {
                    // one rectangle, whole
                    let (r, c) = (rng.below(h), rng.below(w));
                    for y in r..(r + 1 + rng.below(6)).min(h) {
                        map[(1 + y) * columns + 2 + c..(1 + y) * columns + 2 + (c + 1 + rng.below(6)).min(w)].fill(1);
                    }
                    rng.below(3)
                }
                1 | 2 => 1 + rng.below(3),
                3 | 4 => 1 + w * h / 20 + rng.below(4),
                5 => w * h / 10,
                6 => w * h / 3,
                _ => w * h,
            };
            for _ in 0..faults {
                map[(1 + rng.below(h)) * columns + 2 + rng.below(w)] = 1;
            }
        }
        let (mut columns, mut rows) = (columns as u32, rows as u32);
        match rng.below(24) {
            0 => map.truncate(rng.below(map.len() + 1)),
            1 => map.extend(vec![0; 1 + rng.below(3)]),
            2 => { let i = rng.below(map.len()); map[i] = rng.next() as u8; }
            3 | 4 => { let i = rng.below(map.len()); map[i] = 1; }
            5 => columns = [0, 65, 66, 128, u32::MAX, rng.next()][rng.below(6)],
            6 => rows = [0, 65, 66, 128, u32::MAX, rng.next()][rng.below(6)],
            7 if rng.one_in(4) => std::mem::swap(&mut columns, &mut rows),
            _ => {}
        }
        Case::new(columns, rows, &map)
    }

    /// Bars from south to north, as close as blocks can be: a route along a row goes to the end of each and back.
    pub fn bars(rng: &mut Random) -> Case {
        let mut map = vec![0; 64 * 64];
        for column in (2..60).step_by(3) {
            for row in 1 + rng.below(9)..63 - rng.below(9) {
                map[row * 64 + column] = 1;
            }
        }
        Case::new(64, 64, &map)
    }
}

/// Blocks are rectangles of bad nodes that hold every one; and they are the boxes that are left of the faults, in the same order.
fn check_blocks(columns: u32, map: &[u8], marks: &[u8], blocks: &[Block]) {
    let nodes: i32 = blocks.iter().map(|b| (b[1] - b[0] + 1) * (b[3] - b[2] + 1)).sum();
    assert_eq!(nodes as usize, marks.iter().filter(|&&x| x != 0).count(), "blocks are rectangles");
    let corners: Vec<_> = blocks.iter().map(|&[south, north, west, east]| [south, west, north, east].map(|n| n as u32)).collect();
    assert_eq!(corners, merge(fault_boxes(columns, map)), "blocks are the merged boxes");
}

/// The number of a network, seldom of none. Some of the others have the low bits of one.
pub fn network(rng: &mut Random) -> u32 {
    if rng.one_in(40) {
        [0, 3, 4, 257, 65_538, 1 << 31 | 1, u32::MAX, rng.next() | 4][rng.below(8)]
    } else {
        1 + rng.below(2) as u32
    }
}

/// A place of the mesh on the widened one.
pub fn widened(place: Place) -> Place {
    (place.0, place.1 + 1)
}

/// A row or a column, seldom off the mesh.
pub fn coordinate(rng: &mut Random, n: u32) -> u32 {
    if rng.one_in(80) {
        [n, n.wrapping_add(1), 64, u32::MAX, rng.next()][rng.below(5)]
    } else {
        rng.below(n.clamp(1, 64) as usize) as u32
    }
}

/// Anywhere, or on the ring of a block or next to that.
pub fn place(rng: &mut Random, case: &Case) -> Place {
    if !case.blocks.is_empty() && rng.one_in(4) {
        let b = case.blocks[rng.below(case.blocks.len())];
        let r = b[0] - 2 + rng.below((b[1] - b[0] + 5) as usize) as i32;
        let c = [b[2] - 3, b[2] - 2, b[2] - 1, b[3] + 1, b[3] + 1, b[3] + 2, b[3] + 3][rng.below(7)];
        return (r.max(0) as u32, c.max(0) as u32);
    }
    (coordinate(rng, case.rows), coordinate(rng, case.columns))
}
