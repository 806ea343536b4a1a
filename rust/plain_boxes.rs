//! Blocks from rectangles (document 02, E10) in plain Rust: std only, written the direct way from the paper, apart from the proved code. `boxes`
//! answers and writes as the function of c/pinduguil.h does.
#![allow(dead_code)]
use crate::plain_mesh::{check_map, REFUSED};

/// A box: lowest row, lowest column, highest row, highest column. So boxes are sorted by lowest row, then lowest column.
pub type Corners = [u32; 4];

/// Each fault is a box of one node.
pub fn fault_boxes(columns: u32, map: &[u8]) -> Vec<Corners> {
    let faults = (0..).zip(map).filter(|(_, &x)| x == 1);
    faults.map(|(i, _)| [i / columns, i % columns, i / columns, i % columns]).collect()
}

/// Less than 3 apart in column and less than 2 apart in row, in either direction.
fn are_close(a: &Corners, b: &Corners) -> bool {
    a[1] < b[3] + 3 && b[1] < a[3] + 3 && a[0] < b[2] + 2 && b[0] < a[2] + 2
}

/// The one box around both.
fn around(a: Corners, b: Corners) -> Corners {
    [a[0].min(b[0]), a[1].min(b[1]), a[2].max(b[2]), a[3].max(b[3])]
}

/// Each box, the last one first, takes in those that are close among the ones already there, until none is.
pub fn merge(boxes: Vec<Corners>) -> Vec<Corners> {
    let mut merged: Vec<Corners> = vec![];
    for mut b in boxes.into_iter().rev() {
        while let Some(k) = merged.iter().position(|a| are_close(a, &b)) {
            b = around(b, merged.swap_remove(k));
        }
        merged.push(b);
    }
    merged.sort();
    merged
}

/// The same in the paper's words: any two that are close are replaced by one, and so on with the shorter list. `pick` says which of so many pairs.
pub fn merge_any(mut boxes: Vec<Corners>, mut pick: impl FnMut(usize) -> usize) -> Vec<Corners> {
    loop {
        let pairs = |i: usize| (0..i).map(move |k| (k, i));
        let close: Vec<_> = (0..boxes.len()).flat_map(pairs).filter(|&(k, i)| are_close(&boxes[k], &boxes[i])).collect();
        if close.is_empty() {
            boxes.sort();
            return boxes;
        }
        let (k, i) = close[pick(close.len())];
        boxes[k] = around(boxes[k], boxes[i]);
        boxes.swap_remove(i);
    }
}

pub fn boxes(columns: u32, rows: u32, map: &[u8], list: &mut [u32]) -> u32 {
    if let Err(why) = check_map(columns, rows, map) {
        return REFUSED + why;
    }
    let faults = fault_boxes(columns, map);
    let Some(list) = list.get_mut(..4 * faults.len()) else {
        return REFUSED + 10;
    };
    let boxes = merge(faults);
    let (numbers, rest) = list.split_at_mut(4 * boxes.len());
    numbers.copy_from_slice(boxes.as_flattened());
    rest.fill(0);
    boxes.len() as u32
}
