//! Draw a map by number.
use crate::lent::{self, differs, met, start_mut, Compared};
use crate::plain_draw;
use crate::plain_mesh::{self, REFUSED};
use crate::random::Random;
use crate::wrapper;
use crate::wrapper::raw::{self, library};

#[derive(Default)]
pub struct Drawing {
    answers: [u64; 25], // by refusal; 0 answered
    again: u64,         // of those answered, with a place that was drawn again
    most: u32,          // faults
    null: [u64; 1],     // output
}

impl Drawing {
    pub fn check(&mut self, rng: &mut Random, compared: &mut Compared) {
        for columns in 0..=66 {
            for rows in 0..=66 {
                for _ in 0..20 {
                    let draws = [0, 1, 2, 1000, 1001, u32::MAX, rng.below(1002) as u32, rng.below(60) as u32][rng.below(8)];
                    self.check_one(rng, columns, rows, draws, compared);
                }
            }
        }
        for draws in 0..=1001 {
            self.check_one(rng, 64, 64, draws, compared);
        }
        for _ in 0..2000 {
            let (columns, rows, draws) = (rng.next(), rng.next(), rng.below(1100) as u32);
            let (columns, rows) = [(columns, rows), (columns, 8), (10, rows), (u32::MAX, 0), (1 << 16, 1 << 16)][rng.below(5)];
            self.check_one(rng, columns, rows, draws, compared);
        }
    }

    fn check_one(&mut self, rng: &mut Random, columns: u32, rows: u32, draws: u32, compared: &mut Compared) {
        let seed = [0, u32::MAX, 1 << 31, rng.below(200) as u32, rng.next(), rng.next()][rng.below(6)];
        let n = if columns <= 66 && rows <= 66 { (columns * rows) as usize } else { rng.below(200) };
        let length = [0, n.saturating_sub(1), n, n, n, n + 1 + rng.below(40)][rng.below(6)];
        let mut out = lent::bytes(length, rng.next());
        let expected = plain_draw::draw(columns, rows, seed, draws, out.plain());
        let room = out.room();
        let answer = if compared.goes_as_c([length], &mut self.null) {
            unsafe { library::pinduguil_draw(columns, rows, seed, draws, start_mut(room), length) }
        } else {
            raw::draw(columns, rows, seed, draws, room)
        };
        let case = (columns, rows, seed, draws);
        compared.request("draw", &case, &[], &[&out], [answer, expected], || format!("output length {length}"));
        self.answers[answer.saturating_sub(REFUSED) as usize] += 1;
        if answer < REFUSED {
            self.again += (answer < draws) as u64;
            self.most = self.most.max(answer);
            check_map(case, answer, &out.room()[..n]);
        }
    }

    /// Prints counts, and says whether every answer and a null pointer were met.
    pub fn report(&self) -> bool {
        let Drawing { answers, again, most, null } = self;
        let [served, columns, rows, room, draws] = [0, 1, 2, 10, 24].map(|i| answers[i]);
        println!("draw: answered {served}, with a place drawn again {again}, most faults {most}; refusals 1, 2, 24, 10: {:?}; null for output: {}",
            [columns, rows, draws, room], null[0]);
        met(answers, [0, 1, 2, 10, 24]) && *again > 0 && null[0] > 0
    }
}

/// The map is one that operations take, and the safe function hands it back.
fn check_map(case: (u32, u32, u32, u32), faults: u32, map: &[u8]) {
    let (columns, rows, seed, draws) = case;
    let mut out = [0; wrapper::MOST_NODES];
    let drawn = wrapper::draw(columns, rows, seed, draws, &mut out);
    if !drawn.is_ok_and(|(n, mesh)| n == faults && mesh.map == map && (mesh.columns, mesh.rows) == (columns, rows)) {
        differs("draw", &case, format!("the safe function hands back something else than {map:?}"));
    }
    if let Err(why) = plain_mesh::check_map(columns, rows, map) {
        differs("draw", &case, format!("its map is refused by {why}: {map:?}"));
    }
}
