//! The operations of documents 01 and 02 in plain Rust: std only, written the direct way from the paper, apart from the proved code. The
//! differential test compares the library with it, and speed is measured against it.
//! There is a section for each operation. `mark`, `route`, `pick`, `route_batch`, `judge` and `move_on` answer and write as the functions of
//! c/pinduguil.h do, on a map that `Mesh::new` has checked and marked, or refused.
#![allow(dead_code)]

/// An answer that is this or more is this plus the number of a refusal.
pub const REFUSED: u32 = 65_536;

/// The answer where there is no request: no network, or no record.
pub const NO_REQUEST: u32 = 65_536;

/// A row and a column as a caller gives them.
pub type Place = (u32, u32);

/// A row and a column on the mesh or beside it.
pub type Node = (i32, i32);

/// A map with its blocks marked, or its refusal, 1 to 5.
pub type Checked = Result<Mesh, u32>;

pub fn node(place: Place) -> Node {
    (place.0 as i32, place.1 as i32)
}

/// The number that an operation answers, or the refusal of the map or of the request.
fn answer(mesh: &Checked, operation: impl FnOnce(&Mesh) -> Result<u32, u32>) -> u32 {
    mesh.as_ref().map_err(|why| *why).and_then(operation).unwrap_or_else(|why| REFUSED + why)
}

/// The same of an operation that takes the network, if the number is one's.
fn answer_on(network: u32, mesh: &Checked, operation: impl FnOnce(&Mesh, Network) -> Result<u32, u32>) -> u32 {
    match Network::numbered(network) {
        Some(network) => answer(mesh, |mesh| operation(mesh, network)),
        None => NO_REQUEST,
    }
}

/// Writes the first of some numbers, if there is one.
fn put_first(numbers: &mut [u64], n: u64) {
    if let Some(first) = numbers.first_mut() {
        *first = n;
    }
}

// ---- Networks

/// The two networks. On the second odd and even columns are exchanged, in the turn rules and in the hop rules.
#[derive(Clone, Copy, Debug, PartialEq, Eq)]
pub enum Network {
    First = 0,
    Second = 1,
}

impl Network {
    pub fn numbered(number: u32) -> Option<Network> {
        match number {
            1 => Some(Network::First),
            2 => Some(Network::Second),
            _ => None,
        }
    }

    /// Whether NW and SW are forbidden in column c: an odd one on the first network, an even one on the second. In the others EN and ES are.
    pub fn forbids_west(self, c: i32) -> bool {
        (c + self as i32) % 2 == 1
    }
}

// ---- Maps and their marks

/// A mesh with a mark for each node, row 0 first: 0 safe, 1 faulty, 2 unsafe.
pub struct Mesh {
    columns: i32,
    rows: i32,
    marks: Vec<u8>,
    /// how many rounds the marking took; the last one changed nothing
    pub rounds: u32,
}

/// Refusals 1 to 5.
pub fn check_map(columns: u32, rows: u32, map: &[u8]) -> Result<(), u32> {
    if !(1..=64).contains(&columns) {
        return Err(1);
    }
    if !(1..=64).contains(&rows) {
        return Err(2);
    }
    let (columns, rows) = (columns as usize, rows as usize);
    if map.len() != columns * rows {
        return Err(3);
    }
    if map.iter().any(|&x| x > 1) {
        return Err(4);
    }
    for (r, row) in map.chunks(columns).enumerate() {
        for (c, &x) in row.iter().enumerate() {
            if x != 0 && !(r >= 1 && r + 1 < rows && c >= 2 && c + 2 < columns) {
                return Err(5);
            }
        }
    }
    Ok(())
}

impl Mesh {
    pub fn new(columns: u32, rows: u32, map: &[u8]) -> Checked {
        check_map(columns, rows, map)?;
        let mut mesh = Mesh { columns: columns as i32, rows: rows as i32, marks: map.to_vec(), rounds: 1 };
        while mesh.round() {
            mesh.rounds += 1;
        }
        Ok(mesh)
    }

    /// One round of the marking, all nodes at once; says whether it changed anything.
    fn round(&mut self) -> bool {
        let mut next = self.marks.clone();
        for r in 0..self.rows {
            for c in 0..self.columns {
                let i = self.index(r, c);
                if self.marks[i] == 0 && self.turns_unsafe(r, c) {
                    next[i] = 2;
                }
            }
        }
        let changed = next != self.marks;
        self.marks = next;
        changed
    }

    fn turns_unsafe(&self, r: i32, c: i32) -> bool {
        if self.is_bad((r + 1, c)) || self.is_bad((r - 1, c)) {
            self.is_bad((r, c + 1)) || self.is_bad((r, c - 1)) || self.is_bad((r, c + 2)) || self.is_bad((r, c - 2))
        } else {
            self.is_bad((r, c + 1)) && self.is_bad((r, c - 1))
        }
    }

    /// The mark of a node, if it is on the mesh.
    fn mark(&self, (r, c): Node) -> Option<u8> {
        if r >= 0 && c >= 0 && r < self.rows && c < self.columns {
            Some(self.marks[self.index(r, c)])
        } else {
            None
        }
    }

    fn is_bad(&self, at: Node) -> bool {
        self.mark(at).is_some_and(|x| x != 0)
    }

    fn index(&self, r: i32, c: i32) -> usize {
        (r * self.columns + c) as usize
    }

    pub fn marks(&self) -> &[u8] {
        &self.marks
    }

    /// The same mesh with a column more at its west edge, all safe. There a node's column is odd where it was even.
    pub fn widened(&self) -> Mesh {
        let marks = self.marks.chunks(self.columns as usize).flat_map(|row| [&[0], row].concat()).collect();
        Mesh { columns: self.columns + 1, marks, ..*self }
    }
}

// ---- Mark blocks

pub fn mark(mesh: &Checked, out: &mut [u8], rounds: &mut [u64]) -> u32 {
    answer(mesh, |mesh| {
        let out = out.get_mut(..mesh.marks.len()).ok_or(10u32)?;
        out.copy_from_slice(&mesh.marks);
        put_first(rounds, mesh.rounds.into());
        Ok(mesh.blocks().len() as u32)
    })
}

/// A block: its first and last row, its first and last column.
pub type Block = [i32; 4];

impl Mesh {
    /// From each bad node that is in none yet: as far north and as far east as nodes are bad. A block is a rectangle.
    pub fn blocks(&self) -> Vec<Block> {
        let mut left = self.marks.clone();
        let mut blocks = vec![];
        for i in 0..left.len() {
            if left[i] == 0 {
                continue;
            }
            let (r, c) = (i as i32 / self.columns, i as i32 % self.columns);
            let north = (r..self.rows).take_while(|&r| self.is_bad((r, c))).last().unwrap_or(r);
            let east = (c..self.columns).take_while(|&c| self.is_bad((r, c))).last().unwrap_or(c);
            for r in r..=north {
                left[self.index(r, c)..=self.index(r, east)].fill(0);
            }
            blocks.push([r, north, c, east]);
        }
        blocks
    }
}

// ---- Requests

impl Mesh {
    /// Refusals 6 and 7.
    pub fn check_places(&self, source: Place, destination: Place) -> Result<(), u32> {
        let places = [source, destination];
        if places.iter().any(|p| p.0 >= self.rows as u32 || p.1 >= self.columns as u32) {
            return Err(6);
        }
        if places.iter().any(|&p| self.is_bad(node(p))) {
            return Err(7);
        }
        Ok(())
    }

    /// Refusals 6 to 8.
    fn check_request(&self, source: Place, destination: Place) -> Result<(), u32> {
        self.check_places(source, destination)?;
        if self.is_block_near_in_row(node(destination)) {
            return Err(8);
        }
        Ok(())
    }

    /// Whether a node in the row, one or two columns away, is in a block.
    fn is_block_near_in_row(&self, (r, c): Node) -> bool {
        [c - 2, c - 1, c + 1, c + 2].iter().any(|&c| self.is_bad((r, c)))
    }
}

// ---- Hops, by their letters; 0 is no last hop

/// The node after a hop.
pub fn after((r, c): Node, h: u8) -> Node {
    match h {
        b'E' => (r, c + 1),
        b'N' => (r + 1, c),
        b'S' => (r - 1, c),
        _ => (r, c - 1),
    }
}

fn reverses(last: u8, h: u8) -> bool {
    matches!((last, h), (b'E', b'W') | (b'W', b'E') | (b'N', b'S') | (b'S', b'N'))
}

/// The rule of document 001 that a turn breaks in column c, if any.
fn broken_rule(network: Network, last: u8, h: u8, c: i32) -> Option<u32> {
    match (last, h) {
        (b'E', b'N') if !network.forbids_west(c) => Some(1),
        (b'N', b'W') if network.forbids_west(c) => Some(1),
        (b'E', b'S') if !network.forbids_west(c) => Some(2),
        (b'S', b'W') if network.forbids_west(c) => Some(2),
        _ => None,
    }
}

impl Mesh {
    pub fn is_lawful(&self, network: Network, at: Node, last: u8, h: u8) -> bool {
        self.mark(after(at, h)) == Some(0) && !reverses(last, h) && broken_rule(network, last, h, at.1).is_none()
    }

    /// The hop rules 2 to 6.
    pub fn hop(&self, network: Network, (r, c): Node, last: u8, (to_r, to_c): Node) -> u8 {
        let (side, step) = if to_c > c { (b'E', 1) } else { (b'W', -1) };
        // on the first network odd columns for a packet going east, even ones for a packet going west
        let is_own = |side: u8| network.forbids_west(c) == (side == b'E');
        let is_stopped = || self.is_bad((r, c + step)) || (is_own(side) && self.is_bad((r, c + 2 * step)));
        if r == to_r {
            if !is_stopped() {
                return side;
            }
            return if last == b'S' { b'S' } else { b'N' };
        }
        let (toward, up) = if r < to_r { (b'N', 1) } else { (b'S', -1) };
        match last {
            b'N' | b'S' if last == toward => {
                if self.is_bad((r + up, c)) {
                    b'W'
                } else {
                    last
                }
            }
            b'N' | b'S' => {
                if is_stopped() {
                    last
                } else {
                    side
                }
            }
            _ => {
                let on = if last == b'E' { b'E' } else { b'W' };
                if is_own(on) && !self.is_bad((r + up, c)) {
                    toward
                } else {
                    on
                }
            }
        }
    }
}

// ---- Route

pub fn route(network: u32, mesh: &Checked, source: Place, destination: Place, out: &mut [u8]) -> u32 {
    answer_on(network, mesh, |mesh, network| {
        let mut letters = vec![];
        mesh.route(network, source, destination, &mut letters)?;
        let out = out.get_mut(..letters.len()).ok_or(10u32)?;
        out.copy_from_slice(&letters);
        Ok(letters.len() as u32)
    })
}

impl Mesh {
    /// The condition that refusal 9 comes to: the source is shut in by a block, or meets the edge.
    pub fn is_shut_in(&self, network: Network, (r, c): Node, (to_r, to_c): Node) -> bool {
        let by_block = self.is_bad((r, c - 1)) && (r != to_r || to_c < c);
        let by_edge = c == 0 && r != to_r;
        network.forbids_west(c) && (by_block || by_edge)
    }

    /// The letters of a route, or its refusal, 6 to 9.
    pub fn route(&self, network: Network, source: Place, destination: Place, letters: &mut Vec<u8>) -> Result<(), u32> {
        letters.clear();
        self.check_request(source, destination)?;
        let (mut at, to) = (node(source), node(destination));
        if self.is_shut_in(network, at, to) {
            return Err(9);
        }
        let mut last = 0;
        while at != to {
            last = self.hop(network, at, last, to);
            letters.push(last);
            at = after(at, last);
        }
        Ok(())
    }
}

// ---- Pick the network with the shorter route

/// 1 or 2, the number of letters goes to `letters`, and 0 to `refusal`; or 0, and the first network's refusal goes to `refusal`.
pub fn pick(
    mesh: &Checked, source: Place, destination: Place, first: &mut [u8], second: &mut [u8], letters: &mut [u64], refusal: &mut [u64],
) -> u32 {
    let answers = [route(1, mesh, source, destination, first), route(2, mesh, source, destination, second)];
    let hops = answers[0].min(answers[1]);
    if hops >= REFUSED {
        put_first(refusal, (answers[0] - REFUSED) as u64);
        return 0;
    }
    put_first(letters, hops as u64);
    put_first(refusal, 0);
    if answers[0] == hops { 1 } else { 2 }
}

// ---- A whole table of sends

/// An answer is the number of hops, or 65,536 plus the refusal; the number of all letters goes to `letters`.
pub fn route_batch(network: u32, mesh: &Checked, sends: &[u32], answers: &mut [u32], out: &mut [u8], letters: &mut [u64]) -> u32 {
    let Some(network) = Network::numbered(network) else { return NO_REQUEST };
    let mesh = match mesh {
        Ok(mesh) => mesh,
        Err(why) => return *why,
    };
    if sends.len() % 4 != 0 || answers.len() < sends.len() / 4 {
        return 18;
    }
    let (mut at, mut route) = (0, vec![]);
    for (send, answer) in sends.chunks(4).zip(answers) {
        *answer = match mesh.route(network, (send[0], send[1]), (send[2], send[3]), &mut route) {
            Err(why) => REFUSED + why,
            Ok(()) if out.len() - at < route.len() => REFUSED + 10,
            Ok(()) => {
                out[at..at + route.len()].copy_from_slice(&route);
                at += route.len();
                route.len() as u32
            }
        };
    }
    put_first(letters, at as u64);
    0
}

// ---- Judge a hand-in

pub fn judge(network: u32, mesh: &Checked, source: Place, destination: Place, letters: &[u8], index: &mut [u64]) -> u32 {
    let Some(network) = Network::numbered(network) else { return NO_REQUEST };
    let (answer, i) = match mesh {
        Ok(mesh) => mesh.judge(network, source, destination, letters),
        Err(why) => (*why, 0),
    };
    put_first(index, i as u64);
    answer
}

impl Mesh {
    /// 0 passed or what is wrong, and the length or the index.
    fn judge(&self, network: Network, source: Place, destination: Place, letters: &[u8]) -> (u32, usize) {
        if let Err(why) = self.check_places(source, destination) {
            return (why, 0);
        }
        let (mut at, mut last) = (node(source), 0);
        for (i, &h) in letters.iter().enumerate() {
            if !matches!(h, b'E' | b'N' | b'S' | b'W') {
                return (11, i);
            }
            let next = after(at, h);
            let Some(mark) = self.mark(next) else { return (12, i) };
            if reverses(last, h) {
                return (13, i);
            }
            if let Some(rule) = broken_rule(network, last, h, at.1) {
                return (if rule == 1 { 14 } else { 17 }, i);
            }
            if mark != 0 {
                return (15, i);
            }
            (at, last) = (next, h);
        }
        (if at == node(destination) { 0 } else { 16 }, letters.len())
    }
}

// ---- Move on

/// Last hops by their numbers.
const LAST: [u8; 5] = [0, b'E', b'N', b'S', b'W'];

pub fn move_on(network: u32, mesh: &Checked, packet: &mut [u32]) -> u32 {
    let [row, column, last @ 0..=4, to_row, to_column] = *packet else { return NO_REQUEST };
    let (place, destination, last) = ((row, column), (to_row, to_column), LAST[last as usize]);
    answer_on(network, mesh, |mesh, network| {
        mesh.check_request(place, destination)?;
        if place == destination {
            return Ok(0);
        }
        let at = node(place);
        let h = mesh.hop(network, at, last, node(destination));
        if !mesh.is_lawful(network, at, last, h) {
            return Err(9);
        }
        let (r, c) = after(at, h);
        let last = LAST.iter().position(|&x| x == h).unwrap_or(0);
        packet[..3].copy_from_slice(&[r as u32, c as u32, last as u32]);
        Ok(h as u32)
    })
}
