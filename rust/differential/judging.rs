//! Judge a hand-in.
use crate::inputs::{widened, Case};
use crate::lent::{self, differs, met, start, start_mut, Compared, Input};
use crate::plain_mesh::{self, after, node, Network, Place, NO_REQUEST};
use crate::random::Random;
use crate::routing::walk;
use crate::wrapper::raw::{self, library};

#[derive(Default)]
pub struct Judging {
    networks: [Counts; 2],
    no_network: [u64; 2], // without room for the index, with room
    nulls: [u64; 3],      // map, letters, index
}

/// Of a network.
#[derive(Default)]
struct Counts {
    answers: [u64; 18],    // by number; 0 passed
    with_index: [u64; 18], // of these, with room for the index
    turns: [u64; 32],      // hops after another, by the two letters and the remainder by 2 of the column between
}

/// A hand-in: a route, a lawful walk or letters at random; perhaps damaged.
fn hand_in(number: u32, rng: &mut Random, case: &Case, s: Place, d: &mut Place) -> Vec<u8> {
    let mut letters = vec![];
    let network = Network::numbered(number).unwrap_or(Network::First);
    if let Ok(mesh) = &case.mesh {
        if mesh.check_places(s, *d).is_ok() {
            match rng.below(3) {
                0 => letters = walk(number, case, s, *d).unwrap_or_default(),
                1 => {
                    let (mut at, mut last) = (node(s), 0);
                    for _ in 0..rng.below(30) {
                        let h = b"ENSW"[rng.below(4)];
                        if mesh.is_lawful(network, at, last, h) {
                            letters.push(h);
                            at = after(at, h);
                            last = h;
                        }
                    }
                    if !rng.one_in(4) {
                        *d = (at.0 as u32, at.1 as u32);
                    }
                }
                _ => letters = (0..rng.below(12)).map(|_| b"ENSW"[rng.below(4)]).collect(),
            }
        }
    }
    match rng.below(8) {
        0 if !letters.is_empty() => { let i = rng.below(letters.len()); letters[i] = b"ENSWensw"[rng.below(8)]; }
        1 if !letters.is_empty() => { let i = rng.below(letters.len()); letters[i] = rng.next() as u8; }
        2 => letters.truncate(rng.below(letters.len() + 1)),
        3 => letters.push(b"ENSW"[rng.below(4)]),
        _ => {}
    }
    letters
}

/// On the second network a hand-in that stays on the mesh is judged as on the first on the widened mesh.
fn check_widened(case: &Case, s: Place, d: Place, letters: &[u8], answer: u32, index: &[u64]) {
    if matches!(answer, 0 | 11 | 13..=17) {
        let mut told = [0];
        let expected = plain_mesh::judge(1, &case.widened, widened(s), widened(d), letters, &mut told);
        if answer != expected || index.first().is_some_and(|&i| i != told[0]) {
            let widened = format!("on the widened mesh {expected} at {}", told[0]);
            differs("plain judge", case, format!("source {s:?} destination {d:?} letters {letters:?}: {answer} at {index:?}, {widened}"));
        }
    }
}

impl Judging {
    pub fn check(&mut self, network: u32, rng: &mut Random, case: &Case, s: Place, mut d: Place, compared: &mut Compared) {
        let letters = hand_in(network, rng, case, s, &mut d);
        self.compare(network, rng, case, s, d, &letters, compared);
    }

    /// The answer on a hand-in, which is that of the plain judge.
    pub fn compare(&mut self, network: u32, rng: &mut Random, case: &Case, s: Place, d: Place, letters: &[u8], compared: &mut Compared) -> u32 {
        let (columns, rows, map) = (case.columns, case.rows, case.map.given());
        let hand_in = Input::new(letters);
        let letters = hand_in.given();
        let length = rng.below(4);
        let mut index = lent::numbers(length, || rng.next() as u64 | 1 << 40);
        let expected = plain_mesh::judge(network, &case.mesh, s, d, letters, index.plain());
        if network == 2 {
            check_widened(case, s, d, letters, expected, index.plain());
        }
        let room = index.room();
        let answer = if compared.goes_as_c([map.len(), letters.len(), length], &mut self.nulls) {
            let (m, l, map, letters, index) = (map.len(), letters.len(), start(map), start(letters), start_mut(room));
            unsafe { library::pinduguil_judge(network, columns, rows, map, m, s.0, s.1, d.0, d.1, letters, l, index, length) }
        } else {
            raw::judge(network, columns, rows, map, s, d, letters, room)
        };
        let detail = || format!("network {network} source {s:?} destination {d:?} letters {letters:?} index length {length}");
        compared.request("judge", case, &[&case.map, &hand_in], &[&index], [answer, expected], detail);
        if answer == NO_REQUEST {
            self.no_network[usize::from(length > 0)] += 1;
            return answer;
        }
        let counts = &mut self.networks[network as usize - 1];
        counts.answers[answer as usize] += 1;
        counts.with_index[answer as usize] += (length > 0) as u64;
        match answer {
            0 | 16 => counts.count_turns(s, letters),
            13..=15 | 17 if length > 0 => counts.count_turns(s, &letters[..=index.room()[0] as usize]),
            _ => {}
        }
        answer
    }

    /// Prints counts, and says whether every answer, with an index too, every null pointer and, on each network, every pair of hops was met.
    pub fn report(&self) -> bool {
        println!("judge: null for map, letters, index: {:?}", self.nulls);
        println!("    without a network, without room for the index and with room: {:?}", self.no_network);
        let whole = [1, 2].map(|network| self.networks[network - 1].report(network));
        whole[0] && whole[1] && met(&self.no_network, 0..2) && met(&self.nulls, 0..3)
    }
}

impl Counts {
    /// All of these letters were judged, the last one at least up to its turn.
    fn count_turns(&mut self, s: Place, letters: &[u8]) {
        let number = |letter| b"ENSW".iter().position(|&x| x == letter).unwrap();
        let mut at = node(s);
        for pair in letters.windows(2) {
            at = after(at, pair[0]);
            self.turns[8 * number(pair[0]) + 2 * number(pair[1]) + at.1 as usize % 2] += 1;
        }
    }

    fn report(&self, network: usize) -> bool {
        println!("    network {network}: passed, numbers 1 to 17: {:?}; with room for the index: {:?}", self.answers, self.with_index);
        println!("        hops after another, by their letters in even and odd columns: {:?}", self.turns);
        let all = || (0..8).chain(11..18);
        met(&self.answers, all()) && met(&self.with_index, all()) && met(&self.turns, 0..32)
    }
}
