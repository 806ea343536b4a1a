//! What is shown of channels (document 02, E9), tried on the plain mesh: lawful hops never lead back to a channel, no walk is longer than the
//! theorem says, and a tour of the mesh without faults is as long. The library judges the tours, whole and with a letter more.
use crate::inputs::Case;
use crate::judging::Judging;
use crate::lent::Compared;
use crate::plain_mesh::{after, Mesh, Network, Node};
use crate::random::Random;

#[derive(Default)]
pub struct Channels {
    tours: u64,
    meshes: u64,
    states: u64,
    longest: usize, // letters of a tour
}

/// Along each column once, and through all columns there and back.
fn most(columns: usize, rows: usize) -> usize {
    columns * (rows - 1) + 2 * (columns - 1)
}

/// From the south-east corner west through all columns and back, along each one where its hops N and S may turn on. With the corner where it ends.
fn tour(network: Network, columns: usize, rows: usize) -> (Vec<u8>, Node) {
    let mut letters = vec![];
    let mut at = (0, columns as i32 - 1);
    let mut go = |h: u8, hops: usize| {
        for _ in 0..hops {
            letters.push(h);
            at = after(at, h);
        }
    };
    let mut up = true;
    let west = (0..columns as i32).rev().map(|c| (b'W', c, c == 0 || !network.forbids_west(c)));
    let east = (1..columns as i32).map(|c| (b'E', c, network.forbids_west(c)));
    for (side, c, along) in west.chain(east) {
        if side == b'E' {
            go(b'E', 1);
        }
        if along {
            go(if up { b'N' } else { b'S' }, rows - 1);
            up = !up;
        }
        if side == b'W' && c > 0 {
            go(b'W', 1);
        }
    }
    (letters, at)
}

/// The lawful walks on a mesh, by where the packet is and its last hop.
struct Walks<'a> {
    mesh: &'a Mesh,
    network: Network,
    columns: i32,
    longest: Vec<Option<usize>>, // the most hops from a state on
    entered: Vec<bool>,
}

impl Walks<'_> {
    /// The most hops from there on. A state that is entered again before it is left would be on a ring.
    fn from(&mut self, at: Node, last: u8) -> usize {
        let number = b"ENSW".iter().position(|&h| h == last).map_or(0, |i| i + 1);
        let state = (at.0 * self.columns + at.1) as usize * 5 + number;
        if let Some(hops) = self.longest[state] {
            return hops;
        }
        assert!(!self.entered[state], "a ring of channels through {at:?}, last hop {}", last as char);
        self.entered[state] = true;
        let mut hops = 0;
        for h in *b"ENSW" {
            if self.mesh.is_lawful(self.network, at, last, h) {
                hops = hops.max(1 + self.from(after(at, h), h));
            }
        }
        self.longest[state] = Some(hops);
        hops
    }
}

impl Channels {
    /// The tour of a mesh without faults is passed; a letter more, whichever, is not.
    fn check_tour(&mut self, number: u32, rng: &mut Random, case: &Case, judging: &mut Judging, compared: &mut Compared) {
        let (columns, rows) = (case.columns as usize, case.rows as usize);
        let (mut letters, end) = tour(Network::numbered(number).unwrap(), columns, rows);
        let (source, destination) = ((0, case.columns - 1), (end.0 as u32, end.1 as u32));
        assert_eq!(letters.len(), most(columns, rows));
        assert_eq!(judging.compare(number, rng, case, source, destination, &letters, compared), 0, "tour of {columns} by {rows}");
        for h in *b"ENSW" {
            let (r, c) = after(end, h);
            let is_on = (0..case.rows as i32).contains(&r) && (0..case.columns as i32).contains(&c);
            let beyond = if is_on { (r as u32, c as u32) } else { destination };
            letters.push(h);
            let answer = judging.compare(number, rng, case, source, beyond, &letters, compared);
            assert!((12..=17).contains(&answer), "{answer} for {} after the tour of {columns} by {rows}", h as char);
            letters.pop();
        }
        self.tours += 1;
        self.longest = self.longest.max(letters.len());
    }

    /// All walks on a mesh, from every free node and every last hop.
    fn check_walks(&mut self, network: Network, case: &Case, faults: bool) {
        let Ok(mesh) = &case.mesh else { return };
        let (columns, rows) = (case.columns as usize, case.rows as usize);
        let states = columns * rows * 5;
        let mut walks = Walks { mesh, network, columns: columns as i32, longest: vec![None; states], entered: vec![false; states] };
        let mut longest = 0;
        for (i, _) in mesh.marks().iter().enumerate().filter(|(_, &mark)| mark == 0) {
            for last in *b" ENSW" {
                longest = longest.max(walks.from(((i / columns) as i32, (i % columns) as i32), last));
            }
        }
        let most = most(columns, rows);
        assert!(longest <= most, "{longest} hops on {case:?}");
        if !faults {
            // along one row no packet can turn back
            assert_eq!(longest, if rows > 1 { most } else { columns - 1 }, "the longest walk on {case:?}");
        }
        self.meshes += 1;
        self.states += states as u64;
    }

    pub fn check(&mut self, rng: &mut Random, judging: &mut Judging, compared: &mut Compared) {
        for columns in 1..=64 {
            for rows in 2..=64 {
                let case = Case::without_faults(columns, rows);
                for number in 1..=2 {
                    self.check_tour(number, rng, &case, judging, compared);
                }
            }
        }
        for columns in 1..=12 {
            for rows in 1..=9 {
                let empty = Case::without_faults(columns, rows);
                for network in [Network::First, Network::Second] {
                    self.check_walks(network, &empty, false);
                    for _ in 0..8 {
                        let case = Case::random(rng, columns as usize, rows as usize);
                        self.check_walks(network, &case, true);
                    }
                }
            }
        }
    }

    /// Prints counts, and says whether the longest tour was met.
    pub fn report(&self) -> bool {
        println!("channels: {} tours judged, the longest of {} letters; all walks on {} meshes, {} states", self.tours, self.longest, self.meshes, self.states);
        self.longest == 4158
    }
}
