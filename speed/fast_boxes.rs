//! Blocks from rectangles in Rust written for speed: the map checked without leaving a loop, faults of a row that are close taken as one box, and a
//! box compared only with those that end near enough. It answers and writes as rust/plain_boxes.rs does.

const REFUSED: u32 = 65_536;

type Corners = [u32; 4];

fn are_close(a: Corners, b: Corners) -> bool {
    (a[1] < b[3] + 3) & (b[1] < a[3] + 3) & (a[0] < b[2] + 2) & (b[0] < a[2] + 2)
}

/// The refusal, 1 to 5, or 0.
fn check(columns: u32, rows: u32, map: &[u8]) -> u32 {
    if columns.wrapping_sub(1) >= 64 {
        return 1;
    }
    if rows.wrapping_sub(1) >= 64 {
        return 2;
    }
    if map.len() != (columns * rows) as usize {
        return 3;
    }
    if map.iter().fold(0, |all, x| all | x) > 1 {
        return 4;
    }
    let wide = columns as usize;
    let edge = |row: &[u8]| row.iter().fold(0, |all, x| all | x);
    let mut outside = edge(&map[..wide]) | edge(&map[map.len() - wide..]);
    for row in map.chunks_exact(wide) {
        outside |= edge(&row[..wide.min(2)]) | edge(&row[wide.saturating_sub(2)..]);
    }
    if outside != 0 { 5 } else { 0 }
}

/// Puts a box among the first n, which end in the order of their highest rows, or lets it take in those that are close; answers their number.
fn take_in(list: &mut [Corners], mut n: usize, mut b: Corners) -> usize {
    loop {
        let mut k = n;
        let close = loop {
            if k == 0 || list[k - 1][2] + 1 < b[0] {
                break None;
            }
            k -= 1;
            if are_close(list[k], b) {
                break Some(list[k]);
            }
        };
        let Some(a) = close else {
            list[n] = b;
            return n + 1;
        };
        let beside = (a[0] <= b[0]) & (a[1] <= b[1]) & (b[3] <= a[3]);
        if beside & (b[2] <= a[2]) {
            return n;
        }
        list.copy_within(k + 1..n, k);
        n -= 1;
        let only_taller = beside & (b[2] <= a[2] + 1);
        b = [a[0].min(b[0]), a[1].min(b[1]), a[2].max(b[2]), a[3].max(b[3])];
        if only_taller {
            list[n] = b;
            return n + 1;
        }
    }
}

pub fn boxes(columns: u32, rows: u32, map: &[u8], list: &mut [u32]) -> u32 {
    let why = check(columns, rows, map);
    if why != 0 {
        return REFUSED + why;
    }
    let faults = map.iter().map(|&x| x as usize).sum::<usize>();
    let Some(list) = list.get_mut(..4 * faults) else {
        return REFUSED + 10;
    };
    let (list, _) = list.as_chunks_mut::<4>();
    let mut n = 0;
    for (r, row) in (0..).zip(map.chunks_exact(columns as usize)) {
        let mut c = 0;
        while c < row.len() {
            if row[c] == 0 {
                c += 1;
                continue;
            }
            let (west, mut east) = (c, c);
            c += 1;
            while c < row.len() && c < east + 3 {
                if row[c] != 0 {
                    east = c;
                }
                c += 1;
            }
            n = take_in(list, n, [r, west as u32, r, east as u32]);
        }
    }
    list[..n].sort_unstable();
    list[n..].fill([0; 4]);
    n as u32
}
