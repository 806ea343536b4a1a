//! Maps drawn by number (document 02, E8) in plain Rust: std only, written the direct way from the paper, apart from the proved code. `draw`
//! answers and writes as the function of c/pinduguil.h does.

/// An answer that is this or more is this plus the number of a refusal.
const REFUSED: u32 = 65_536;

/// The places where a fault is allowed, west to east, row by row from the lowest, by their indexes in the map.
fn places(columns: u32, rows: u32) -> Vec<usize> {
    let mut places = vec![];
    for row in 1..rows.saturating_sub(1) {
        for column in 2..columns.saturating_sub(2) {
            places.push((row * columns + column) as usize);
        }
    }
    places
}

pub fn draw(columns: u32, rows: u32, seed: u32, draws: u32, out: &mut [u8]) -> u32 {
    if !(1..=64).contains(&columns) {
        return REFUSED + 1;
    }
    if !(1..=64).contains(&rows) {
        return REFUSED + 2;
    }
    let places = places(columns, rows);
    if draws > 1000 || draws > 0 && places.is_empty() {
        return REFUSED + 24;
    }
    let Some(map) = out.get_mut(..(columns * rows) as usize) else {
        return REFUSED + 10;
    };
    map.fill(0);
    let mut state = seed;
    for _ in 0..draws {
        state = state.wrapping_mul(1_664_525).wrapping_add(1_013_904_223);
        map[places[(state as u64 * places.len() as u64 >> 32) as usize]] = 1;
    }
    map.iter().map(|&x| x as u32).sum()
}
