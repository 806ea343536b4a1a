//! Maps drawn by number in Rust written for speed: no list of the places, the place of a number by one division, and the faults counted as they
//! are set. It answers and writes as rust/plain_draw.rs does.

const REFUSED: u32 = 65_536;

pub fn draw(columns: u32, rows: u32, seed: u32, draws: u32, out: &mut [u8]) -> u32 {
    if columns.wrapping_sub(1) >= 64 {
        return REFUSED + 1;
    }
    if rows.wrapping_sub(1) >= 64 {
        return REFUSED + 2;
    }
    if draws > 1000 || draws > 0 && (columns < 5 || rows < 3) {
        return REFUSED + 24;
    }
    let Some(map) = out.get_mut(..(columns * rows) as usize) else {
        return REFUSED + 10;
    };
    map.fill(0);
    let wide = columns.wrapping_sub(4);
    let places = wide.wrapping_mul(rows.wrapping_sub(2)) as u64;
    let (mut state, mut faults) = (seed, 0);
    for _ in 0..draws {
        state = state.wrapping_mul(1_664_525).wrapping_add(1_013_904_223);
        let k = (state as u64 * places >> 32) as u32;
        let node = &mut map[((k / wide + 1) * columns + k % wide + 2) as usize];
        faults += (*node == 0) as u32;
        *node = 1;
    }
    faults
}
