//! A whole table of sends.
use crate::inputs::{place, Case};
use crate::lent::{self, differs, met, start, start_mut, Compared, Input};
use crate::plain_mesh::{self, NO_REQUEST, REFUSED};
use crate::random::Random;
use crate::routing::walk;
use crate::wrapper::raw::{self, library};
use crate::wrapper::{Mesh, Network, Place};

#[derive(Default)]
pub struct Batch {
    answers: [[u64; 19]; 2], // on each network by refusal; 0 answered
    sends: [[u64; 11]; 2],   // the same of each send
    no_network: u64,
    after: u64,      // served after one without room
    empty: u64,      // tables without sends
    most: u64,       // letters
    nulls: [u64; 5], // map, sends, answers, output, letters
}

/// Each send's part of the output, as the safe wrapper hands it back, is what a single call writes to what those before it left free.
fn check_parts(network: Network, case: &Case, sends: &[u32], length: usize) {
    let mesh = Mesh { columns: case.columns, rows: case.rows, map: case.map.given() };
    let place = |numbers: &[u32]| Place { row: numbers[0], column: numbers[1] };
    let sends: Vec<_> = sends.chunks(4).map(|send| [place(send), place(&send[2..])]).collect();
    let (mut answers, mut out, mut single) = (vec![0; sends.len()], vec![0; length], vec![0; length]);
    let parts = mesh.route_batch(network, &sends, &mut answers, &mut out).into_iter().flatten();
    let (mut at, mut compared) = (0, 0);
    for (send, part) in sends.iter().zip(parts) {
        let alone = mesh.route(network, send[0], send[1], &mut single[at..]);
        if part != alone {
            differs("single call", case, format!("{network:?} network, send {send:?}, {at} bytes taken: {alone:?}, in the table {part:?}"));
        }
        at += part.map_or(0, <[u8]>::len);
        compared += 1;
    }
    if compared < sends.len() {
        differs("single calls", case, format!("only {compared} of {} sends are answered", sends.len()));
    }
}

impl Batch {
    pub fn check(&mut self, network: u32, rng: &mut Random, case: &Case, most: usize, compared: &mut Compared) {
        let places: Vec<_> = (0..rng.below(most)).map(|_| (place(rng, case), place(rng, case))).collect();
        let hops: usize = places.iter().map(|&(s, d)| walk(network, case, s, d).map_or(0, |letters| letters.len())).sum();
        let mut sends: Vec<_> = places.iter().flat_map(|(s, d)| [s.0, s.1, d.0, d.1]).collect();
        if rng.one_in(20) {
            sends.truncate(sends.len().saturating_sub(1 + rng.below(3)));
        }
        let sends = Input::new(&sends);
        let n = sends.given().len() / 4;
        let entries = match rng.below(12) {
            0 => n.saturating_sub(1 + rng.below(3)),
            1 => n + 1 + rng.below(3),
            _ => n,
        };
        let length = match rng.below(5) {
            0 => rng.below(hops + 1),
            1 => rng.below(24),
            2 => hops.saturating_sub(1),
            3 => hops,
            _ => hops + rng.below(40),
        };
        let mut answers = lent::numbers(entries, || rng.next());
        let mut out = lent::bytes(length, rng.next());
        let mut letters = lent::numbers(rng.below(3), || rng.next() as u64 | 1 << 40);
        let expected = plain_mesh::route_batch(network, &case.mesh, sends.given(), answers.plain(), out.plain(), letters.plain());
        if expected == 0 && rng.one_in(8) {
            check_parts(if network == 1 { Network::First } else { Network::Second }, case, sends.given(), length);
        }
        let answer = self.call(network, case, sends.given(), answers.room(), out.room(), letters.room(), compared);
        let detail = || format!("network {network} sends {:?} entries {entries} output length {length}", sends.given());
        compared.request("route_batch", case, &[&case.map, &sends], &[&answers, &out, &letters], [answer, expected], detail);
        if answer == NO_REQUEST {
            self.no_network += 1;
            return;
        }
        self.answers[network as usize - 1][answer as usize] += 1;
        if answer == 0 {
            self.count(network, &answers.room()[..n]);
        }
    }

    fn call(
        &mut self, network: u32, case: &Case, sends: &[u32], answers: &mut [u32], out: &mut [u8], letters: &mut [u64], compared: &Compared,
    ) -> u32 {
        let (columns, rows, map) = (case.columns, case.rows, case.map.given());
        let (m, s, a, o, l) = (map.len(), sends.len(), answers.len(), out.len(), letters.len());
        if !compared.goes_as_c([m, s, a, o, l], &mut self.nulls) {
            return raw::route_batch(network, columns, rows, map, sends, answers, out, letters);
        }
        let (answers, out, letters) = (start_mut(answers), start_mut(out), start_mut(letters));
        unsafe { library::pinduguil_route_batch(network, columns, rows, start(map), m, start(sends), s, answers, a, out, o, letters, l) }
    }

    fn count(&mut self, network: u32, answers: &[u32]) {
        let (mut full, mut letters) = (false, 0);
        for &answer in answers {
            self.sends[network as usize - 1][answer.saturating_sub(REFUSED) as usize] += 1;
            if answer < REFUSED {
                letters += answer as u64;
                self.after += (full && answer > 0) as u64;
            }
            full |= answer == REFUSED + 10;
        }
        self.empty += answers.is_empty() as u64;
        self.most = self.most.max(letters);
    }

    /// Prints counts, and says whether every answer and every null pointer was met.
    pub fn report(&self) -> bool {
        let mut whole = true;
        for (i, (answers, sends)) in self.answers.iter().zip(&self.sends).enumerate() {
            println!("table of sends, network {}: answered, refusals 1 to 18: {answers:?}", i + 1);
            println!("    sends: served, refusals 1 to 10: {sends:?}");
            whole &= met(answers, [0, 1, 2, 3, 4, 5, 18]) && met(sends, [0, 6, 7, 8, 9, 10]);
        }
        println!("    {} served after one without room; {} tables without sends; {} letters at most", self.after, self.empty, self.most);
        println!("    without a network: {}; null for map, sends, answers, output, letters: {:?}", self.no_network, self.nulls);
        let kinds = self.after > 0 && self.empty > 0 && self.no_network > 0;
        whole && kinds && self.most > 65_535 && met(&self.nulls, 0..5)
    }
}
