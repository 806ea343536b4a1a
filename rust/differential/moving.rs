//! Move on.
use crate::inputs::Case;
use crate::lent::{differs, met, start, start_mut, Compared, Output};
use crate::plain_mesh::{self, Place, NO_REQUEST, REFUSED};
use crate::random::Random;
use crate::wrapper::raw::{self, library};

#[derive(Default)]
pub struct Moving {
    answers: [[u64; 11]; 2], // on each network: 0 arrived, 1 to 9 refused, 10 a letter
    edge: u64,               // of refusals 9 on the second network, those of a fresh packet at the edge
    no_record: [u64; 6],     // on a network, by the map's refusal
    no_network: [u64; 2],    // with a record, without one
    nulls: [u64; 2],         // map, record
}

/// On the second network a packet moves as on the first on the widened mesh. A hop to the west column there leaves the mesh here.
fn check_widened(case: &Case, packet: &[u32], answer: u32, after: &[u32]) {
    if answer < REFUSED || answer == REFUSED + 9 {
        let on_widened = |record: &[u32]| [record[0], record[1] + 1, record[2], record[3], record[4] + 1];
        let mut moved = on_widened(packet);
        let mut expected = plain_mesh::move_on(1, &case.widened, &mut moved);
        if moved[1] == 0 {
            (expected, moved) = (REFUSED + 9, on_widened(packet));
        }
        if answer != expected || on_widened(after) != moved {
            let widened = format!("on the widened mesh {expected}, {moved:?}");
            differs("plain move_on", case, format!("packet {packet:?}: answer {answer}, {after:?}, {widened}"));
        }
    }
}

impl Moving {
    /// One call on a record between margins; answers what the library answered.
    fn call(&mut self, network: u32, case: &Case, packet: &mut [u32], compared: &mut Compared) -> u32 {
        let n = packet.len();
        let mut filled = vec![0xABCD_1234; n + 2];
        filled[1..1 + n].copy_from_slice(packet);
        let mut record = Output::new(filled, 1);
        let expected = plain_mesh::move_on(network, &case.mesh, record.plain());
        if network == 2 {
            check_widened(case, packet, expected, record.plain());
        }
        let (columns, rows, map) = (case.columns, case.rows, case.map.given());
        let room = record.room();
        let answer = if compared.goes_as_c([map.len(), n], &mut self.nulls) {
            unsafe { library::pinduguil_move_on(network, columns, rows, start(map), map.len(), start_mut(room), n) }
        } else {
            raw::move_on(network, columns, rows, map, room)
        };
        let detail = || format!("network {network} packet {packet:?}");
        compared.request("move_on", case, &[&case.map], &[&record], [answer, expected], detail);
        self.count(network, case, packet, answer);
        packet.copy_from_slice(record.room());
        answer
    }

    fn count(&mut self, network: u32, case: &Case, packet: &[u32], answer: u32) {
        let is_record = packet.len() == 5 && packet[2] < 5;
        if !(1..=2).contains(&network) {
            self.no_network[usize::from(!is_record)] += 1;
            return;
        }
        let kind = match answer {
            0 => 0,
            NO_REQUEST => return self.no_record[case.refusal() as usize] += 1,
            _ if answer > REFUSED => (answer - REFUSED) as usize,
            _ => 10,
        };
        self.answers[network as usize - 1][kind] += 1;
        self.edge += u64::from(kind == 9 && network == 2 && packet[1..3] == [0, 0]);
    }

    /// A record with any last hop, or none that is one.
    pub fn check(&mut self, network: u32, rng: &mut Random, case: &Case, s: Place, d: Place, compared: &mut Compared) {
        let mut packet = vec![s.0, s.1, rng.below(5) as u32, d.0, d.1];
        match rng.below(30) {
            0 => packet[2] = [5, 6, 69, u32::MAX, rng.next()][rng.below(5)],
            1 => packet.truncate(rng.below(5)),
            2 => packet.extend(vec![rng.next(); 1 + rng.below(3)]),
            _ => {}
        }
        self.call(network, case, &mut packet, compared);
    }

    /// A fresh packet, moved on until it is answered no letter.
    pub fn check_list(&mut self, network: u32, case: &Case, s: Place, d: Place, compared: &mut Compared) {
        let mut packet = [s.0, s.1, 0, d.0, d.1];
        while (1..REFUSED).contains(&self.call(network, case, &mut packet, compared)) {}
    }

    /// Prints counts, and says whether every answer, without a record or a network too, and every null pointer was met.
    pub fn report(&self) -> bool {
        let [first, second] = &self.answers;
        println!("move on: arrived, refusals 1 to 9, letters: {first:?}; on the second network: {second:?}; at its edge: {}", self.edge);
        println!("    no record, on a good map and on one of refusals 1 to 5: {:?}", self.no_record);
        println!("    without a network, with a record and without: {:?}; null for map, record: {:?}", self.no_network, self.nulls);
        let none = met(&self.no_record, 0..6) && met(&self.no_network, 0..2);
        met(first, 0..11) && met(second, 0..11) && self.edge > 0 && none && met(&self.nulls, 0..2)
    }
}
