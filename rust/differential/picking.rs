//! Pick the network with the shorter route.
use crate::inputs::Case;
use crate::lent::{self, differs, met, start, start_mut, Compared};
use crate::plain_mesh::{self, Place};
use crate::random::Random;
use crate::routing::walk;
use crate::wrapper::raw::{self, library};
use crate::wrapper::{self, Mesh, Network, MOST_HOPS};

#[derive(Default)]
pub struct Picking {
    refusals: [[u64; 11]; 11], // by the first network's and the second's; 0 served
    lengths: [u64; 3],         // of both served: the first is shorter, a tie, the second is shorter
    no_room: [u64; 2],         // of one served: the other network's route is shorter and has no room, by the one that is picked
    edge: u64,                 // the second network refuses at its edge
    with_numbers: [u64; 3],    // by answer, with room for letters and refusal
    nulls: [u64; 5],           // map, first, second, letters, refusal
}

/// The refusals of the first network and the second that can meet. 1 to 8 are the same on both; no source is refused 9 on both.
const MEET: [(usize, usize); 16] = [
    (0, 0), (1, 1), (2, 2), (3, 3), (4, 4), (5, 5), (6, 6), (7, 7), (8, 8), (0, 9), (9, 0), (0, 10), (10, 0), (9, 10), (10, 9), (10, 10),
];

/// A length of an output for n letters: none, too short, just long enough or longer.
fn draw_length(rng: &mut Random, n: usize) -> usize {
    match rng.below(7) {
        0 => 0,
        1 => rng.below(24),
        2 => n.saturating_sub(1),
        3 => n,
        4 => n + 1,
        5 if rng.one_in(50) => MOST_HOPS - 1 + rng.below(3),
        _ => n + rng.below(40),
    }
}

/// What is picked of two networks' routes: a network and its letters, or the first one's refusal.
fn better<'a, R>(first: Result<&'a [u8], R>, second: Result<&'a [u8], R>) -> Result<(u32, &'a [u8]), R> {
    match (first, second) {
        (Ok(a), Ok(b)) if b.len() < a.len() => Ok((2, b)),
        (Err(_), Ok(b)) => Ok((2, b)),
        (first, _) => first.map(|a| (1, a)),
    }
}

/// What the safe wrapper hands back is the better of two single calls.
fn check_part(case: &Case, s: Place, d: Place, lengths: [usize; 2]) {
    let mesh = Mesh { columns: case.columns, rows: case.rows, map: case.map.given() };
    let [s, d] = [s, d].map(|(row, column)| wrapper::Place { row, column });
    let [mut a, mut b] = lengths.map(|n| vec![0; n]);
    let [mut first, mut second] = lengths.map(|n| vec![0; n]);
    let singles = better(mesh.route(Network::First, s, d, &mut a), mesh.route(Network::Second, s, d, &mut b));
    let part = mesh.pick(s, d, &mut first, &mut second).map(|(network, letters)| (network as u32, letters));
    if part != singles {
        differs("pick", case, format!("source {s:?} destination {d:?} lengths {lengths:?}: {part:?}, by single calls {singles:?}"));
    }
}

impl Picking {
    pub fn check(&mut self, rng: &mut Random, case: &Case, s: Place, d: Place, compared: &mut Compared) {
        let walked = [1, 2].map(|network| walk(network, case, s, d));
        let lengths = [0, 1].map(|i| draw_length(rng, walked[i].as_ref().map_or(0, Vec::len)));
        let [mut first, mut second] = lengths.map(|n| lent::bytes(n, rng.next()));
        let [mut letters, mut refusal] = [(); 2].map(|_| lent::numbers(rng.below(3), || rng.next() as u64 | 1 << 40));
        let expected = plain_mesh::pick(&case.mesh, s, d, first.plain(), second.plain(), letters.plain(), refusal.plain());

        let served = [0, 1].map(|i| match &walked[i] {
            Ok(letters) if letters.len() > lengths[i] => Err(10),
            walked => walked.as_deref().map_err(|why| *why),
        });
        let is_told = |numbers: &[u64], n: u64| numbers.first().map_or(true, |&first| first == n);
        let is_right = match better(served[0], served[1]) {
            Err(why) => expected == 0 && is_told(refusal.plain(), why as u64),
            Ok((network, route)) => {
                let out = if network == 1 { first.plain() } else { second.plain() };
                let is_told = is_told(letters.plain(), route.len() as u64) && is_told(refusal.plain(), 0);
                expected == network && out.starts_with(route) && is_told
            }
        };
        let detail = || format!("source {s:?} destination {d:?} lengths {lengths:?}");
        if !is_right {
            differs("plain pick", case, format!("{}: answer {expected}, walked {walked:?}", detail()));
        }
        if rng.one_in(8) {
            check_part(case, s, d, lengths);
        }

        let answer = self.call(case, s, d, [first.room(), second.room()], [letters.room(), refusal.room()], compared);
        compared.request("pick", case, &[&case.map], &[&first, &second, &letters, &refusal], [answer, expected], detail);
        let told = !letters.room().is_empty() && !refusal.room().is_empty();
        self.with_numbers[answer as usize] += u64::from(told);
        self.count(served, &walked, s);
    }

    fn call(
        &mut self, case: &Case, s: Place, d: Place, [first, second]: [&mut [u8]; 2], [letters, refusal]: [&mut [u64]; 2], compared: &Compared,
    ) -> u32 {
        let (columns, rows, map) = (case.columns, case.rows, case.map.given());
        let (m, f, g, l, r) = (map.len(), first.len(), second.len(), letters.len(), refusal.len());
        if !compared.goes_as_c([m, f, g, l, r], &mut self.nulls) {
            return raw::pick(columns, rows, map, s, d, first, second, letters, refusal);
        }
        let (map, first, second, letters, refusal) = (start(map), start_mut(first), start_mut(second), start_mut(letters), start_mut(refusal));
        unsafe { library::pinduguil_pick(columns, rows, map, m, s.0, s.1, d.0, d.1, first, f, second, g, letters, l, refusal, r) }
    }

    fn count(&mut self, served: [Result<&[u8], u32>; 2], walked: &[Result<Vec<u8>, u32>; 2], s: Place) {
        let [first, second] = served.map(|route| route.err().unwrap_or(0) as usize);
        self.refusals[first][second] += 1;
        self.edge += u64::from(second == 9 && s.1 == 0);
        if let [Ok(a), Ok(b)] = walked {
            match (first, second) {
                (0, 0) => self.lengths[(a.len().cmp(&b.len()) as i32 + 1) as usize] += 1,
                (0, 10) => self.no_room[0] += u64::from(b.len() < a.len()),
                (10, 0) => self.no_room[1] += u64::from(a.len() < b.len()),
                _ => {}
            }
        }
    }

    /// Prints counts, and says whether every pair of answers and of lengths and every null pointer was met.
    pub fn report(&self) -> bool {
        println!("pick: by the networks' refusals, 0 served: {:?}", MEET.map(|(a, b)| (a, b, self.refusals[a][b])));
        println!("    both served, the first shorter, a tie, the second shorter: {:?}; second at its edge: {}", self.lengths, self.edge);
        println!("    first picked, second picked, the other shorter without room: {:?}", self.no_room);
        println!("    none, first, second picked with room for both numbers: {:?}", self.with_numbers);
        println!("    null for map, first, second, letters, refusal: {:?}", self.nulls);
        let whole = MEET.iter().all(|&(a, b)| self.refusals[a][b] > 0) && met(&self.lengths, 0..3) && met(&self.no_room, 0..2);
        whole && self.edge > 0 && met(&self.with_numbers, 0..3) && met(&self.nulls, 0..5)
    }
}
