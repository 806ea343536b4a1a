//! Blocks from rectangles.
use crate::inputs::Case;
use crate::lent::{self, differs, met, start, start_mut, Compared};
use crate::plain_boxes::{self, fault_boxes, merge_any};
use crate::plain_mesh::REFUSED;
use crate::random::Random;
use crate::wrapper::raw::{self, library};
use crate::wrapper::{Corners, Mesh, Refusal};

#[derive(Default)]
pub struct Boxing {
    answers: [u64; 11], // by refusal; 0 answered
    merged: [u64; 3],   // of those answered: without faults, each fault is a box, some are merged
    any: u64,           // of those answered, merged in an order at random too
    most: u32,          // boxes
    nulls: [u64; 2],    // map, list
}

/// The boxes are the blocks of the library's own marking: as many, and a node is in one exactly if it is bad.
fn check_blocks(case: &Case, list: &[u32]) {
    let (columns, map) = (case.columns as usize, case.map.given());
    let mut marks = vec![0; map.len()];
    let blocks = raw::mark(case.columns, case.rows, map, &mut marks, &mut []);
    let mut inside = vec![false; map.len()];
    for b in list.chunks(4) {
        for row in b[0] as usize..=b[2] as usize {
            inside[row * columns + b[1] as usize..=row * columns + b[3] as usize].fill(true);
        }
    }
    if blocks as usize != list.len() / 4 || marks.iter().zip(&inside).any(|(&mark, &inside)| inside != (mark != 0)) {
        differs("boxes", case, format!("{list:?}, but {blocks} blocks marked {marks:?}"));
    }
}

/// What the safe wrapper hands back with room for so many boxes is the same.
fn check_part(case: &Case, room: usize, boxes: Result<&[u32], Refusal>) {
    let mesh = Mesh { columns: case.columns, rows: case.rows, map: case.map.given() };
    let mut list = vec![Corners::default(); room];
    let part = mesh.boxes(&mut list);
    let numbers = part.map(|part| part.iter().flat_map(|b| [b.low.row, b.low.column, b.high.row, b.high.column]).collect::<Vec<_>>());
    if numbers.as_deref() != boxes.as_ref().map(|list| *list) {
        differs("boxes", case, format!("room for {room}: {part:?}, expected {boxes:?}"));
    }
}

impl Boxing {
    pub fn check(&mut self, rng: &mut Random, case: &Case, compared: &mut Compared) {
        let n = 4 * case.faults();
        let length = match rng.below(7) {
            0 => 0,
            1 => rng.below(n + 1),
            2 => n.saturating_sub(1),
            3 => n + 1 + rng.below(9),
            _ => n,
        };
        self.check_list(rng, case, length, compared);
    }

    /// Every map of 9 columns by 5 rows, where 15 nodes may be faulty, and some of 64 x 64.
    pub fn check_maps(&mut self, rng: &mut Random, compared: &mut Compared) {
        for map in 0..1 << 15 {
            let case = Case::chosen(9, 5, |row, column| map >> (5 * row + column - 7) & 1 == 1);
            let length = 4 * case.faults() + rng.below(3);
            self.check_list(rng, &case, length, compared);
        }
        // 620 boxes, as many as there can be: of each 3 columns by 2 rows one node
        let far = |row: usize, column: usize| row % 2 == 1 && column % 3 == 2;
        let maps: [&dyn Fn(usize, usize) -> bool; 9] = [
            &far,
            &|_, _| true,
            &|_, column| column % 3 == 2,
            &|row, _| row % 2 == 1,
            &|row, column| (row + column) % 2 == 1,
            // tall boxes beside the small ones
            &|row, column| far(row, column) || column % 3 == 2 && column < 30,
            &|row, column| far(row, column) || column % 3 == 2 && column > 30,
            // one box takes in all the others: at the end of the map, or at its start
            &|row, column| far(row, column) || column == 2 || row == 62,
            &|row, column| far(row, column) || column == 61 || row == 1,
        ];
        for is_fault in maps {
            let case = Case::chosen(64, 64, is_fault);
            self.check_list(rng, &case, 4 * case.faults(), compared);
            self.check(rng, &case, compared);
        }
        // a few faults more, and a few less
        for i in 0..60 {
            let case = Case::chosen(64, 64, |row, column| far(row, column) != rng.one_in(10 << i % 8));
            self.check_list(rng, &case, 4 * case.faults(), compared);
        }
    }

    fn check_list(&mut self, rng: &mut Random, case: &Case, length: usize, compared: &mut Compared) {
        let (columns, rows, map) = (case.columns, case.rows, case.map.given());
        let mut list = lent::numbers(length, || rng.next());
        let expected = plain_boxes::boxes(columns, rows, map, list.plain());
        let lent = list.room();
        let answer = if compared.goes_as_c([map.len(), length], &mut self.nulls) {
            unsafe { library::pinduguil_box(columns, rows, start(map), map.len(), start_mut(lent), length) }
        } else {
            raw::boxes(columns, rows, map, lent)
        };
        compared.request("boxes", case, &[&case.map], &[&list], [answer, expected], || format!("list length {length}"));
        self.answers[answer.saturating_sub(REFUSED) as usize] += 1;
        if answer >= REFUSED {
            check_part(case, length / 4, Err(Refusal(answer - REFUSED)));
            return;
        }
        let boxes = &list.room()[..4 * answer as usize];
        check_part(case, length / 4, Ok(boxes));
        check_blocks(case, boxes);
        let faults = case.faults();
        if faults <= 15 {
            let any = merge_any(fault_boxes(columns, map), |n| rng.below(n));
            if any.as_flattened() != boxes {
                differs("boxes", case, format!("{boxes:?}, merged in another order {any:?}"));
            }
            self.any += 1;
        }
        let kind = if faults == 0 { 0 } else if answer as usize == faults { 1 } else { 2 };
        self.merged[kind] += 1;
        self.most = self.most.max(answer);
    }

    /// Prints counts, and says whether every answer, every null pointer and the most boxes were met.
    pub fn report(&self) -> bool {
        let Boxing { answers, merged, any, most, nulls } = self;
        println!("boxes: answered, refusals 1 to 10: {answers:?}; null for map, list: {nulls:?}");
        println!("    without faults, none merged, some merged: {merged:?}; {any} merged at random too; {most} boxes at most");
        met(answers, [0, 1, 2, 3, 4, 5, 10]) && met(merged, 0..3) && *any > 0 && *most == 620 && met(nulls, 0..2)
    }
}
