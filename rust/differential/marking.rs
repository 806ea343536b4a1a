//! Mark blocks.
use crate::inputs::Case;
use crate::lent::{self, met, start, start_mut, Compared};
use crate::plain_mesh::{self, REFUSED};
use crate::random::Random;
use crate::wrapper::raw::{self, library};

#[derive(Default)]
pub struct Marking {
    answers: [u64; 11],     // by refusal; 0 answered
    with_rounds: [u64; 11], // of these, with room for the number of rounds
    rounds: [u64; 4],       // of those answered: 1, 2, 3, more
    nulls: [u64; 3],        // map, output, rounds
}

impl Marking {
    pub fn check(&mut self, rng: &mut Random, case: &Case, compared: &mut Compared) {
        let (columns, rows, map) = (case.columns, case.rows, case.map.given());
        let n = map.len();
        let length = match rng.below(6) {
            0 => rng.below(24),
            1 => n.saturating_sub(1),
            2 => n + rng.below(9),
            _ => n,
        };
        let mut out = lent::bytes(length, rng.next());
        let k = rng.below(4);
        let mut rounds = lent::numbers(k, || rng.next() as u64);
        let expected = plain_mesh::mark(&case.mesh, out.plain(), rounds.plain());
        let (room, lent) = (out.room(), rounds.room());
        let answer = if compared.goes_as_c([n, length, k], &mut self.nulls) {
            unsafe { library::pinduguil_mark(columns, rows, start(map), n, start_mut(room), length, start_mut(lent), k) }
        } else {
            raw::mark(columns, rows, map, room, lent)
        };
        let detail = || format!("output length {length}, {k} numbers for rounds");
        compared.request("mark", case, &[&case.map], &[&out, &rounds], [answer, expected], detail);
        let refusal = answer.saturating_sub(REFUSED) as usize;
        self.answers[refusal] += 1;
        self.with_rounds[refusal] += (k > 0) as u64;
        if let (0, Some(&made)) = (refusal, rounds.room().first()) {
            self.rounds[made.clamp(1, 4) as usize - 1] += 1;
        }
    }

    /// Prints counts, and says whether every answer and every null pointer was met.
    pub fn report(&self) -> bool {
        println!("mark: answered, refusals 1 to 10: {:?}; null for map, output, rounds: {:?}", self.answers, self.nulls);
        println!("    with room for rounds: {:?}; 1, 2, 3, more rounds: {:?}", self.with_rounds, self.rounds);
        [&self.answers, &self.with_rounds].iter().all(|counts| met(*counts, [0, 1, 2, 3, 4, 5, 10])) && met(&self.rounds, 0..4) && met(&self.nulls, 0..3)
    }
}
