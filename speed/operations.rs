//! The operations on 64 x 64 (turning: on 64 x 2), the proved library against rust/plain_mesh.rs. A case is a list of calls; each checks and
//! marks its map. All are on the first network but second-network, and picking, which routes on both. A table of sends is one call; singles-N
//! sets it against as many single calls of the library. Boxes, against rust/plain_boxes.rs or speed/fast_boxes.rs, check their map and mark nothing;
//! marks-M sets them against the library's marking of the same map, which answers as many blocks. Letters to legs and back, against rust/plain_legs.rs, are one call
//! and have no map. Draws, against rust/plain_draw.rs or speed/fast_draw.rs, have none either: each call takes the next number.
//!   operations CASE                   compares answers and output bytes; prints what was done, and then in one line the units of work in
//!                                     the list and its nanoseconds, each call at its best, proved and plain
//!   operations CASE proved|plain N    makes the first N calls and prints nothing, for counting instructions
//! Cases: most-rounds, dense, judging, turning, either of these also with -nothing, one-map, second-network, many-maps, picking, moving,
//! table-N, singles-N, draws-N, fast-draws-N, boxes-M, fast-boxes-M and marks-M, where M is some, dense, all, most-rounds, far or tall, and by what is written
//! legs-L and letters-L, where L is straight, mixed or turning. `speed/run` builds it and shows its figures.
mod fast_boxes;
mod fast_draw;
#[path = "../rust/plain_boxes.rs"]
mod plain_boxes;
#[path = "../rust/plain_draw.rs"]
mod plain_draw;
#[path = "../rust/plain_legs.rs"]
mod plain_legs;
#[path = "../rust/plain_mesh.rs"]
mod plain_mesh;
#[path = "../rust/wrapper.rs"]
mod wrapper;
use plain_mesh::{Checked, REFUSED};
use std::hint::black_box;
use std::time::{Duration, Instant};
use wrapper::raw;

const NODES: usize = 4096;

type Trip = [(u32, u32); 2]; // source, destination

/// All that a call is given stands here, so that the compiler cannot make the plain code for one size or one network.
struct Case {
    network: u32,
    columns: u32,
    rows: u32,
    maps: Vec<Vec<u8>>, // one, or one for each trip
    trips: Vec<Trip>,
    letters: Vec<u8>,
    file: Vec<u8>,   // of the legs of these letters
    sends: Vec<u32>, // a table's
    draws: u32,
    list: usize,     // numbers of boxes
    room: usize,     // bytes of output
    second: usize,   // the same of the second network, for a pick
    calls: usize,
    sides: [fn(&Case, &mut Lent) -> u32; 2], // one call: proved, plain
}

/// What the calls of a side write.
#[derive(PartialEq, Eq, Debug)]
struct Lent {
    out: Vec<u8>,
    second: Vec<u8>, // for a pick
    answers: Vec<u32>,
    list: Vec<u32>, // of boxes
    index: [u64; 1], // or the number of a table's letters, of a pick's, or of what is written
    refusal: [u64; 1],
    packet: [u32; 5],
    trips: usize, // how many are begun, or numbers drawn by
    moving: bool, // whether the last one goes on
}

impl Lent {
    fn new(case: &Case) -> Lent {
        let answers = vec![9; case.sends.len() / 4];
        let (out, second, list) = (vec![9; case.room], vec![9; case.second], vec![9; case.list]);
        Lent { out, second, answers, list, index: [9], refusal: [9], packet: [0; 5], trips: 0, moving: false }
    }
}

impl Case {
    fn map(&self) -> &[u8] {
        &self.maps[0]
    }

    /// The next trip, and its map.
    fn begin(&self, lent: &mut Lent) -> (&[u8], Trip) {
        let i = lent.trips;
        lent.trips += 1;
        (&self.maps[i % self.maps.len()], self.trips[i])
    }
}

/// The plain mesh of a map.
fn plain(case: &Case, map: &[u8]) -> Checked {
    plain_mesh::Mesh::new(case.columns, case.rows, map)
}

fn proved_mark(case: &Case, lent: &mut Lent) -> u32 {
    raw::mark(case.columns, case.rows, case.map(), &mut lent.out, &mut lent.index)
}

fn plain_mark(case: &Case, lent: &mut Lent) -> u32 {
    plain_mesh::mark(&plain(case, case.map()), &mut lent.out, &mut lent.index)
}

fn proved_boxes(case: &Case, lent: &mut Lent) -> u32 {
    raw::boxes(case.columns, case.rows, case.map(), &mut lent.list)
}

fn plain_boxes(case: &Case, lent: &mut Lent) -> u32 {
    plain_boxes::boxes(case.columns, case.rows, case.map(), &mut lent.list)
}

fn fast_boxes(case: &Case, lent: &mut Lent) -> u32 {
    fast_boxes::boxes(case.columns, case.rows, case.map(), &mut lent.list)
}

fn proved_judge(case: &Case, lent: &mut Lent) -> u32 {
    let [s, d] = case.trips[0];
    raw::judge(case.network, case.columns, case.rows, case.map(), s, d, &case.letters, &mut lent.index)
}

fn plain_judge(case: &Case, lent: &mut Lent) -> u32 {
    let [s, d] = case.trips[0];
    plain_mesh::judge(case.network, &plain(case, case.map()), s, d, &case.letters, &mut lent.index)
}

fn proved_route(case: &Case, lent: &mut Lent) -> u32 {
    let (map, [s, d]) = case.begin(lent);
    raw::route(case.network, case.columns, case.rows, map, s, d, &mut lent.out)
}

fn plain_route(case: &Case, lent: &mut Lent) -> u32 {
    let (map, [s, d]) = case.begin(lent);
    plain_mesh::route(case.network, &plain(case, map), s, d, &mut lent.out)
}

fn proved_pick(case: &Case, lent: &mut Lent) -> u32 {
    let (map, [s, d]) = case.begin(lent);
    raw::pick(case.columns, case.rows, map, s, d, &mut lent.out, &mut lent.second, &mut lent.index, &mut lent.refusal)
}

fn plain_pick(case: &Case, lent: &mut Lent) -> u32 {
    let (map, [s, d]) = case.begin(lent);
    plain_mesh::pick(&plain(case, map), s, d, &mut lent.out, &mut lent.second, &mut lent.index, &mut lent.refusal)
}

fn proved_table(case: &Case, lent: &mut Lent) -> u32 {
    let (answers, out, index) = (&mut lent.answers, &mut lent.out, &mut lent.index);
    raw::route_batch(case.network, case.columns, case.rows, case.map(), &case.sends, answers, out, index)
}

fn plain_table(case: &Case, lent: &mut Lent) -> u32 {
    let (answers, out, index) = (&mut lent.answers, &mut lent.out, &mut lent.index);
    plain_mesh::route_batch(case.network, &plain(case, case.map()), &case.sends, answers, out, index)
}

/// The table by single calls of the library.
fn proved_singles(case: &Case, lent: &mut Lent) -> u32 {
    let mut at = 0;
    for (send, entry) in case.sends.chunks(4).zip(&mut lent.answers) {
        let (s, d) = ((send[0], send[1]), (send[2], send[3]));
        *entry = raw::route(case.network, case.columns, case.rows, case.map(), s, d, &mut lent.out[at..]);
        at += if *entry < REFUSED { *entry as usize } else { 0 };
    }
    lent.index[0] = at as u64;
    0
}

/// Moves a packet by one hop, a fresh one if the last has arrived.
fn move_by(case: &Case, lent: &mut Lent, call: impl Fn(&[u8], &mut [u32]) -> u32) -> u32 {
    if !lent.moving {
        let (_, [s, d]) = case.begin(lent);
        lent.packet = [s.0, s.1, 0, d.0, d.1];
    }
    let answer = call(case.map(), &mut lent.packet);
    lent.moving = (1..REFUSED).contains(&answer);
    answer
}

fn proved_move(case: &Case, lent: &mut Lent) -> u32 {
    move_by(case, lent, |map, packet| raw::move_on(case.network, case.columns, case.rows, map, packet))
}

fn plain_move(case: &Case, lent: &mut Lent) -> u32 {
    move_by(case, lent, |map, packet| plain_mesh::move_on(case.network, &plain(case, map), packet))
}

fn proved_to_legs(case: &Case, lent: &mut Lent) -> u32 {
    raw::letters_to_legs(&case.letters, &mut lent.out, &mut lent.index)
}

fn plain_to_legs(case: &Case, lent: &mut Lent) -> u32 {
    plain_legs::letters_to_legs(&case.letters, &mut lent.out, &mut lent.index)
}

fn proved_to_letters(case: &Case, lent: &mut Lent) -> u32 {
    raw::legs_to_letters(&case.file, &mut lent.out, &mut lent.index)
}

fn plain_to_letters(case: &Case, lent: &mut Lent) -> u32 {
    plain_legs::legs_to_letters(&case.file, &mut lent.out, &mut lent.index)
}

/// Draws the map of the next number.
fn draw_by(case: &Case, lent: &mut Lent, draw: impl FnOnce(u32, u32, u32, u32, &mut [u8]) -> u32) -> u32 {
    lent.trips += 1;
    draw(case.columns, case.rows, lent.trips as u32, case.draws, &mut lent.out)
}

fn proved_draw(case: &Case, lent: &mut Lent) -> u32 {
    draw_by(case, lent, raw::draw)
}

fn plain_draw(case: &Case, lent: &mut Lent) -> u32 {
    draw_by(case, lent, plain_draw::draw)
}

fn fast_draw(case: &Case, lent: &mut Lent) -> u32 {
    draw_by(case, lent, fast_draw::draw)
}

fn at(row: usize, column: usize) -> usize {
    row * 64 + column
}

/// 2,343 rounds, the most that was found: the faulty column grows eastward by two columns and by one in turn, and each growth runs along
/// the whole height to the fault that starts the next.
fn map_of_most_rounds() -> Vec<u8> {
    let mut map = vec![0; NODES];
    for row in 1..63 {
        map[at(row, 2)] = 1;
    }
    for column in (4..62).step_by(3) {
        map[at(1, column)] = 1;
    }
    for column in (5..62).step_by(3) {
        map[at(62, column)] = 1;
    }
    map
}

/// Faults at some of the places where they are allowed, by row and column.
fn map_of(is_fault: fn(usize, usize) -> bool) -> Vec<u8> {
    let mut map = vec![0; NODES];
    for row in 1..63 {
        for column in 2..62 {
            map[at(row, column)] = is_fault(row, column) as u8;
        }
    }
    map
}

struct Random(u32);

impl Random {
    fn draw(&mut self, n: usize) -> usize {
        self.0 = self.0.wrapping_mul(1_664_525).wrapping_add(1_013_904_223);
        ((self.0 as u64 * n as u64) >> 32) as usize
    }

    /// Faults anywhere that they are allowed, from a row on.
    fn map(&mut self, faults: usize, first_row: usize) -> Vec<u8> {
        let mut map = vec![0; NODES];
        for _ in 0..faults {
            let row = first_row + self.draw(63 - first_row);
            map[at(row, 2 + self.draw(60))] = 1;
        }
        map
    }

    fn trip(&mut self) -> Trip {
        [(); 2].map(|_| (self.draw(64) as u32, self.draw(64) as u32))
    }
}

/// A lawful walk of 3,966 letters in rows 0 to 60, from the south-east corner back to it: west along the even columns, east along the odd
/// ones. The turn rules leave no cycle, and no lawful walk on 64 x 64 has more than 4,158 letters.
fn long_walk() -> Vec<u8> {
    let mut letters = vec![];
    for run in 0..64 {
        letters.extend_from_slice(match run {
            0 => b"W",
            1..=31 => b"WW",
            32 => b"E",
            _ => b"EE",
        });
        letters.extend_from_slice(&[if run % 2 == 0 { b'N' } else { b'S' }; 60]);
    }
    letters
}

/// A lawful walk of 189 letters in two rows, west and back, that turns at two letters of three: NW and SW in even columns, EN and ES in odd ones.
fn turning_walk() -> Vec<u8> {
    let mut letters = vec![];
    for run in 0..64 {
        let along: &[u8] = match run {
            0 => b"W",
            1..=31 => b"WW",
            32 => b"E",
            _ => b"EE",
        };
        letters.extend_from_slice(along);
        letters.push(if run % 2 == 0 { b'N' } else { b'S' });
    }
    letters.pop();
    letters
}

fn marking(map: Vec<u8>) -> Case {
    Case {
        network: 1,
        columns: 64,
        rows: 64,
        maps: vec![map],
        trips: vec![[(0, 63); 2]],
        letters: vec![],
        file: vec![],
        sends: vec![],
        draws: 0,
        list: 0,
        room: NODES + 8,
        second: 0,
        calls: 1,
        sides: [proved_mark, plain_mark],
    }
}

/// Boxes of a map, by its name, with a list that is longer than need be.
fn boxing(rng: &mut Random, map: &str, other: fn(&Case, &mut Lent) -> u32) -> Case {
    let map = match map {
        "some" => rng.map(200, 1),
        "dense" => rng.map(1000, 1),
        "all" => map_of(|_, _| true),
        "most-rounds" => map_of_most_rounds(),
        "far" => map_of(|row, column| column % 3 == 2 && row % 2 == 1),
        "tall" => map_of(|row, column| column % 3 == 2 && (row % 2 == 1 || column < 30)),
        _ => panic!("no map {}", map),
    };
    let faults = map.iter().filter(|&&x| x == 1).count();
    Case { list: 4 * faults + 8, sides: [proved_boxes, other], ..marking(map) }
}

/// The faults are in rows 61 and 62, out of the walk's way.
fn judging(letters: Vec<u8>) -> Case {
    Case { letters, sides: [proved_judge, plain_judge], ..marking(Random(7).map(20, 61)) }
}

/// On two rows, so that marking is soon done.
fn judging_turns(letters: Vec<u8>) -> Case {
    Case { rows: 2, maps: vec![vec![0; 128]], ..judging(letters) }
}

fn routing(maps: Vec<Vec<u8>>, trips: Vec<Trip>) -> Case {
    Case { maps, calls: trips.len(), trips, sides: [proved_route, plain_route], ..marking(vec![]) }
}

fn one_map(rng: &mut Random, requests: usize) -> Case {
    routing(vec![rng.map(200, 1)], (0..requests).map(|_| rng.trip()).collect())
}

/// From source to arrival, on routes that are served.
fn moving(rng: &mut Random) -> Case {
    let map = rng.map(200, 1);
    let mesh = plain_mesh::Mesh::new(64, 64, &map).unwrap();
    let (mut letters, mut trips, mut calls) = (vec![], vec![], 0);
    while trips.len() < 50 {
        let trip = rng.trip();
        if mesh.route(plain_mesh::Network::First, trip[0], trip[1], &mut letters).is_ok() {
            trips.push(trip);
            calls += letters.len() + 1;
        }
    }
    Case { trips, calls, sides: [proved_move, plain_move], ..marking(map) }
}

/// A table of so many sends on one map, with room for all.
fn table(rng: &mut Random, sends: usize, other: fn(&Case, &mut Lent) -> u32) -> Case {
    let map = rng.map(200, 1);
    let sends: Vec<u32> = (0..sends).flat_map(|_| rng.trip()).flat_map(|place| [place.0, place.1]).collect();
    Case { room: 64 * (sends.len() / 4 + 64), sends, sides: [proved_table, other], ..marking(map) }
}

/// So many legs of such lengths, in directions that differ from one to the next.
fn legs(rng: &mut Random, n: usize, lengths: [usize; 2], sides: [fn(&Case, &mut Lent) -> u32; 2]) -> Case {
    let (mut direction, mut legs, mut letters) = (0, vec![], vec![]);
    let [least, most] = lengths;
    for _ in 0..n {
        direction = (direction + 1 + rng.draw(3)) % 4;
        let length = least + rng.draw(most - least + 1);
        legs.push((b"ENSW"[direction], length));
        letters.resize(letters.len() + length, b"ENSW"[direction]);
    }
    Case { room: letters.len() + 8, letters, file: plain_legs::file_of(&legs), sides, ..marking(vec![]) }
}

/// Maps of so many draws each.
fn drawing(draws: u32, other: fn(&Case, &mut Lent) -> u32) -> Case {
    Case { draws, calls: 500, sides: [proved_draw, other], ..marking(vec![]) }
}

/// How many requests on one map: REQUESTS, or 2,000.
fn requests() -> usize {
    std::env::var("REQUESTS").map_or(2000, |n| n.parse().unwrap())
}

fn find_case(name: &str) -> Case {
    let mut rng = Random(7);
    match name {
        "most-rounds" => marking(map_of_most_rounds()),
        "dense" => marking(rng.map(1000, 1)),
        "judging" => judging(long_walk().into_iter().cycle().take(1_000_000).collect()),
        "judging-nothing" => judging(vec![]),
        "turning" => judging_turns(turning_walk()),
        "turning-nothing" => judging_turns(vec![]),
        "one-map" => one_map(&mut rng, requests()),
        "second-network" => Case { network: 2, ..one_map(&mut rng, 2000) },
        "picking" => Case { second: NODES + 8, sides: [proved_pick, plain_pick], ..one_map(&mut rng, 2000) },
        "many-maps" => {
            // from 7 to 1,000 faults
            let draw_map = |_| {
                let faults = 1000 >> rng.draw(8);
                rng.map(faults, 1)
            };
            let maps = (0..2000).map(draw_map).collect();
            routing(maps, (0..2000).map(|_| rng.trip()).collect())
        }
        "moving" => moving(&mut rng),
        "table-300" => table(&mut rng, 300, plain_table),
        "table-65000" => table(&mut rng, 65_000, plain_table),
        "singles-300" => table(&mut rng, 300, proved_singles),
        "singles-65000" => table(&mut rng, 65_000, proved_singles),
        "legs-straight" => legs(&mut rng, 1000, [16_384; 2], [proved_to_legs, plain_to_legs]),
        "legs-mixed" => legs(&mut rng, 20_000, [1, 20], [proved_to_legs, plain_to_legs]),
        "legs-turning" => legs(&mut rng, 65_535, [1; 2], [proved_to_legs, plain_to_legs]),
        "letters-straight" => legs(&mut rng, 1000, [16_384; 2], [proved_to_letters, plain_to_letters]),
        "letters-mixed" => legs(&mut rng, 20_000, [1, 20], [proved_to_letters, plain_to_letters]),
        "letters-turning" => legs(&mut rng, 65_535, [1; 2], [proved_to_letters, plain_to_letters]),
        "draws-1000" => drawing(1000, plain_draw),
        "draws-20" => drawing(20, plain_draw),
        "fast-draws-1000" => drawing(1000, fast_draw),
        "fast-draws-20" => drawing(20, fast_draw),
        _ => match name.split_once('-') {
            Some(("boxes", map)) => boxing(&mut rng, map, plain_boxes),
            Some(("marks", map)) => boxing(&mut rng, map, proved_mark),
            Some(("fast", name)) if name.starts_with("boxes-") => boxing(&mut rng, &name[6..], fast_boxes),
            _ => panic!("no case {}", name),
        },
    }
}

/// Makes every call on both sides and compares answers and all that was lent, with a margin that no call may touch. Answers what was done,
/// and how many units of work it is.
fn compare(name: &str, case: &Case) -> (String, u64) {
    let mut lents = [Lent::new(case), Lent::new(case)];
    let (mut served, mut hops, mut last) = (0, 0, 0);
    let mut picked = [(0, 0); 2]; // how often each network, and its letters
    for call in 0..case.calls {
        for lent in &mut lents {
            lent.out.fill(9);
            lent.second.fill(9);
        }
        let [proved, plain] = [0, 1].map(|side| case.sides[side](case, &mut lents[side]));
        assert_eq!(proved, plain, "{name}, call {call}");
        // a marking writes to another output than boxes do
        if !name.starts_with("marks-") {
            assert_eq!(lents[0], lents[1], "{name}, call {call}");
        }
        served += (proved < REFUSED) as u32;
        hops += if proved < REFUSED { proved } else { 0 };
        last = proved;
        if let ("picking", 1..=2) = (name, proved) {
            let (calls, letters) = &mut picked[proved as usize - 1];
            *calls += 1;
            *letters += lents[0].index[0];
        }
    }
    let faults = case.maps[0].iter().filter(|&&x| x == 1).count();
    let (calls, maps, trips) = (case.calls, case.maps.len(), case.trips.len());
    match name {
        "judging" | "judging-nothing" => {
            let (given, index) = (case.letters.len(), lents[0].index[0]);
            let done = format!("{name}: {given} letters, both answer {last} at {index}; no lawful walk has over 4158");
            (done, given.min(index as usize + 1) as u64)
        }
        "turning" | "turning-nothing" => {
            let given = case.letters.len();
            (format!("judging on 64 x 2: {given} letters, two of three turn, both answer {last} at {}", lents[0].index[0]), given as u64)
        }
        "one-map" | "second-network" => {
            let network = if name == "one-map" { "" } else { " on the second network" };
            let done = format!("route{network}, one map, {faults} faults: {calls} requests, {served} served, {hops} hops, outputs equal");
            (done, calls as u64)
        }
        "picking" => {
            let [(first, a), (second, b)] = picked;
            let (served, hops) = (format!("first {first}, second {second}"), a + b);
            (format!("pick, one map, {faults} faults: {calls} requests, {served}, {hops} hops, outputs equal"), calls as u64)
        }
        "many-maps" => (format!("route, {maps} maps, a request each: {served} served, {hops} hops, outputs equal"), calls as u64),
        "table-300" | "table-65000" | "singles-300" | "singles-65000" => {
            let (sends, hops) = (case.sends.len() / 4, lents[0].index[0]);
            let served = lents[0].answers.iter().filter(|&&answer| answer < REFUSED).count();
            let other = if name.starts_with("table") { "plain Rust" } else { "single calls" };
            let done = format!("table of sends and {other}: {sends} sends on one map, {faults} faults, {served} served, {hops} hops, all equal");
            (done, sends as u64)
        }
        _ if name.starts_with("legs-") || name.starts_with("letters-") => {
            let (letters, file) = (case.letters.len(), case.file.len());
            let way = if name.starts_with("legs") { "letters to legs" } else { "legs to letters" };
            (format!("{way}: {letters} letters, a file of {file} bytes, both answer {last}, outputs equal"), letters as u64)
        }
        _ if name.contains("boxes-") => (format!("{name}: {faults} faults, both answer {last}, lists equal"), calls as u64),
        _ if name.starts_with("marks-") => (format!("{name}: {faults} faults, both answer {last}"), calls as u64),
        _ if name.contains("draws-") => {
            let draws = case.draws;
            (format!("draw on 64 x 64: {calls} numbers of {draws} draws each, {hops} faults, outputs equal"), calls as u64)
        }
        "moving" => (
            format!("move on, {trips} routes from source to arrival on one map, {faults} faults: {calls} calls, records equal"),
            calls as u64,
        ),
        _ => {
            let rounds = plain(case, case.map()).unwrap().rounds;
            (format!("marking, {name}: {faults} faults, {rounds} rounds, outputs equal"), rounds as u64 * NODES as u64)
        }
    }
}

/// The nanoseconds of the whole list on each side, each call at its best. The sides take turns of 1,000 calls, so that a busy machine slows
/// both.
fn time(case: &Case) -> [u64; 2] {
    let mut best = [vec![u64::MAX; case.calls], vec![u64::MAX; case.calls]];
    let start = Instant::now();
    while start.elapsed() < Duration::from_secs(3) {
        let mut lents = [Lent::new(case), Lent::new(case)];
        for first in (0..case.calls).step_by(1000) {
            for side in [0, 1] {
                for best in best[side].iter_mut().skip(first).take(1000) {
                    let begun = Instant::now();
                    black_box(case.sides[side](black_box(case), &mut lents[side]));
                    *best = (begun.elapsed().as_nanos() as u64).min(*best);
                }
            }
        }
    }
    best.map(|all| all.iter().sum())
}

fn main() {
    let arguments: Vec<String> = std::env::args().skip(1).collect();
    let case = find_case(&arguments[0]);
    if let [_, side, n] = &arguments[..] {
        let call = case.sides[if side == "proved" { 0 } else { 1 }];
        let mut lent = Lent::new(&case);
        for _ in 0..n.parse().unwrap() {
            black_box(call(black_box(&case), &mut lent));
        }
        return;
    }
    let (done, units) = compare(&arguments[0], &case);
    let [proved, plain] = time(&case);
    println!("{done}\n{units} {proved} {plain}");
}
