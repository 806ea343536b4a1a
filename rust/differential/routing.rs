//! Route.
use crate::inputs::{widened, Case};
use crate::lent::{self, differs, met, start, start_mut, Compared};
use crate::plain_mesh::{self, after, node, Block, Network, Node, Place, NO_REQUEST, REFUSED};
use crate::random::Random;
use crate::wrapper::raw::{self, library};
use crate::wrapper::MOST_HOPS;

#[derive(Default)]
pub struct Routing {
    answers: [[u64; 11]; 2], // on each network by refusal; 0 answered
    no_network: u64,
    edge: u64,       // of refusals 9 on the second network, those at the edge
    nulls: [u64; 2], // map, output
    hops: u64,
    longest: usize,
    ring_rows: [u64; 2], // routes to a ring's place south of its block, north of it
}

/// Whether a block has a node in the row, one or two columns away.
fn is_near_in_row(b: &Block, (r, c): Node) -> bool {
    b[0] <= r && r <= b[1] && (b[2]..=b[3]).any(|x| (1..=2).contains(&(x - c).abs()))
}

/// The letters of a route, or its refusal, in another way than the plain mesh finds them: 8 block by block, and 9 by walking the hops, each of
/// which is tested. The second network's hops are the first's on the widened mesh; one to the west column there leaves the mesh here.
/// Without a network the refusal is 0.
pub fn walk(network: u32, case: &Case, source: Place, destination: Place) -> Result<Vec<u8>, u32> {
    let network = Network::numbered(network).ok_or(0u32)?;
    let mesh = case.mesh.as_ref().map_err(|why| *why)?;
    mesh.check_places(source, destination)?;
    if case.blocks.iter().any(|b| is_near_in_row(b, node(destination))) {
        return Err(8);
    }
    let (walked, west, s, d) = match (network, &case.widened) {
        (Network::Second, Ok(mesh)) => (mesh, 1, widened(source), widened(destination)),
        _ => (mesh, 0, source, destination),
    };
    let (mut at, mut last, mut letters) = (node(s), 0, vec![]);
    while at != node(d) {
        let h = walked.hop(Network::First, at, last, node(d));
        let next = after(at, h);
        if next.1 < west || !walked.is_lawful(Network::First, at, last, h) {
            let is_shut_in = mesh.is_shut_in(network, node(source), node(destination));
            assert!(is_shut_in, "an unlawful hop without the condition of refusal 9");
            return Err(9);
        }
        letters.push(h);
        (at, last) = (next, h);
        assert!(letters.len() < 100_000, "the hops do not end");
    }
    Ok(letters)
}

impl Routing {
    pub fn check(&mut self, network: u32, rng: &mut Random, case: &Case, s: Place, d: Place, compared: &mut Compared) {
        let walked = walk(network, case, s, d);
        let n = walked.as_ref().map_or(0, Vec::len);
        let length = match rng.below(6) {
            0 => rng.below(24),
            1 => n.saturating_sub(1),
            2 => n,
            3 => n + 1,
            4 if rng.one_in(50) => MOST_HOPS - 1 + rng.below(3),
            _ => n + rng.below(40),
        };
        let mut out = lent::bytes(length, rng.next());
        let expected = plain_mesh::route(network, &case.mesh, s, d, out.plain());
        let answered = match &walked {
            Err(why) => REFUSED + why,
            Ok(_) if length < n => REFUSED + 10,
            Ok(letters) if out.plain()[..n] == letters[..] => n as u32,
            Ok(_) => REFUSED,
        };
        let detail = || format!("network {network} source {s:?} destination {d:?} output length {length}");
        if expected != answered {
            differs("plain route", case, format!("{}: answer {expected}, walked {walked:?}", detail()));
        }
        let (columns, rows, map) = (case.columns, case.rows, case.map.given());
        let room = out.room();
        let answer = if compared.goes_as_c([map.len(), length], &mut self.nulls) {
            let m = map.len();
            unsafe { library::pinduguil_route(network, columns, rows, start(map), m, s.0, s.1, d.0, d.1, start_mut(room), length) }
        } else {
            raw::route(network, columns, rows, map, s, d, room)
        };
        compared.request("route", case, &[&case.map], &[&out], [answer, expected], detail);
        if answer == NO_REQUEST {
            self.no_network += 1;
            return;
        }
        self.answers[network as usize - 1][answer.saturating_sub(REFUSED) as usize] += 1;
        self.edge += u64::from(answer == REFUSED + 9 && s.1 == 0);
        if answer < REFUSED {
            self.hops += n as u64;
            self.longest = self.longest.max(n);
            let (r, c) = node(d);
            for b in case.blocks.iter().filter(|b| b[2] - 2 <= c && c <= b[3] + 2) {
                self.ring_rows[0] += u64::from(r == b[0] - 1);
                self.ring_rows[1] += u64::from(r == b[1] + 1);
            }
        }
    }

    /// Prints counts, and says whether every answer and every null pointer was met.
    pub fn report(&self) -> bool {
        let [first, second] = &self.answers;
        println!("route: answered, refusals 1 to 10: {first:?}; on the second network: {second:?}; at its edge: {}", self.edge);
        println!("    without a network: {}; null for map, output: {:?}", self.no_network, self.nulls);
        println!("    {} hops, {} in the longest; to rings south, north of a block: {:?}", self.hops, self.longest, self.ring_rows);
        let whole = met(first, 0..11) && met(second, 0..11) && met(&self.nulls, 0..2) && met(&self.ring_rows, 0..2);
        whole && self.edge > 0 && self.no_network > 0
    }
}
