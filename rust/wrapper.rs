//! The operations of Pinduguil as safe Rust, over the static library that `c/library` writes. Nothing is required of a caller:
//! what is wrong is refused by its number (c/pinduguil.h lists them).
#![allow(dead_code)]

/// No route has more hops: an output of this many bytes has room for every route.
pub const MOST_HOPS: usize = 4034;

/// No mesh has more nodes: an output of this many bytes has room for every map.
pub const MOST_NODES: usize = 4096;

/// More draws of a map are refused.
pub const MOST_DRAWS: u32 = 1000;

/// The functions of the library as they are: an answer of 65,536 or more is that plus a refusal. `judge`, `route_batch`, `letters_to_legs` and
/// `legs_to_letters` answer 0 or what is wrong, `pick` the network or 0. A network is 1 or 2; with another number the answer is 65,536.
pub mod raw {
    pub mod library {
        extern "C" {
            pub fn pinduguil_mark(
                columns: u32, rows: u32, map: *const u8, map_length: usize, out: *mut u8, out_length: usize, rounds: *mut u64,
                rounds_length: usize,
            ) -> u32;
            pub fn pinduguil_box(columns: u32, rows: u32, map: *const u8, map_length: usize, list: *mut u32, list_length: usize) -> u32;
            pub fn pinduguil_route(
                network: u32, columns: u32, rows: u32, map: *const u8, map_length: usize, source_row: u32, source_column: u32, row: u32,
                column: u32, out: *mut u8, out_length: usize,
            ) -> u32;
            pub fn pinduguil_pick(
                columns: u32, rows: u32, map: *const u8, map_length: usize, source_row: u32, source_column: u32, row: u32, column: u32,
                first: *mut u8, first_length: usize, second: *mut u8, second_length: usize, letters: *mut u64, letters_length: usize,
                refusal: *mut u64, refusal_length: usize,
            ) -> u32;
            pub fn pinduguil_route_batch(
                network: u32, columns: u32, rows: u32, map: *const u8, map_length: usize, sends: *const u32, sends_length: usize,
                answers: *mut u32, answers_length: usize, out: *mut u8, out_length: usize, letters: *mut u64, letters_length: usize,
            ) -> u32;
            pub fn pinduguil_judge(
                network: u32, columns: u32, rows: u32, map: *const u8, map_length: usize, source_row: u32, source_column: u32, row: u32,
                column: u32, letters: *const u8, letters_length: usize, index: *mut u64, index_length: usize,
            ) -> u32;
            pub fn pinduguil_move_on(
                network: u32, columns: u32, rows: u32, map: *const u8, map_length: usize, packet: *mut u32, packet_length: usize,
            ) -> u32;
            pub fn pinduguil_letters_to_legs(
                letters: *const u8, letters_length: usize, out: *mut u8, out_length: usize, written: *mut u64, written_length: usize,
            ) -> u32;
            pub fn pinduguil_legs_to_letters(
                file: *const u8, file_length: usize, out: *mut u8, out_length: usize, written: *mut u64, written_length: usize,
            ) -> u32;
            pub fn pinduguil_draw(columns: u32, rows: u32, seed: u32, draws: u32, out: *mut u8, out_length: usize) -> u32;
        }
    }

    // Each call is sound: a Rust slice is a valid, aligned pair, and a `&mut` one overlaps no other.

    pub fn mark(columns: u32, rows: u32, map: &[u8], out: &mut [u8], rounds: &mut [u64]) -> u32 {
        let (m, o, r) = (map.len(), out.len(), rounds.len());
        unsafe { library::pinduguil_mark(columns, rows, map.as_ptr(), m, out.as_mut_ptr(), o, rounds.as_mut_ptr(), r) }
    }

    pub fn boxes(columns: u32, rows: u32, map: &[u8], list: &mut [u32]) -> u32 {
        unsafe { library::pinduguil_box(columns, rows, map.as_ptr(), map.len(), list.as_mut_ptr(), list.len()) }
    }

    pub fn route(
        network: u32, columns: u32, rows: u32, map: &[u8], source: (u32, u32), destination: (u32, u32), out: &mut [u8],
    ) -> u32 {
        unsafe {
            library::pinduguil_route(
                network, columns, rows, map.as_ptr(), map.len(), source.0, source.1, destination.0, destination.1,
                out.as_mut_ptr(), out.len(),
            )
        }
    }

    pub fn pick(
        columns: u32, rows: u32, map: &[u8], source: (u32, u32), destination: (u32, u32), first: &mut [u8], second: &mut [u8],
        letters: &mut [u64], refusal: &mut [u64],
    ) -> u32 {
        unsafe {
            library::pinduguil_pick(
                columns, rows, map.as_ptr(), map.len(), source.0, source.1, destination.0, destination.1,
                first.as_mut_ptr(), first.len(), second.as_mut_ptr(), second.len(),
                letters.as_mut_ptr(), letters.len(), refusal.as_mut_ptr(), refusal.len(),
            )
        }
    }

    pub fn route_batch(
        network: u32, columns: u32, rows: u32, map: &[u8], sends: &[u32], answers: &mut [u32], out: &mut [u8], letters: &mut [u64],
    ) -> u32 {
        unsafe {
            library::pinduguil_route_batch(
                network, columns, rows, map.as_ptr(), map.len(), sends.as_ptr(), sends.len(), answers.as_mut_ptr(), answers.len(),
                out.as_mut_ptr(), out.len(), letters.as_mut_ptr(), letters.len(),
            )
        }
    }

    pub fn judge(
        network: u32, columns: u32, rows: u32, map: &[u8], source: (u32, u32), destination: (u32, u32), letters: &[u8], index: &mut [u64],
    ) -> u32 {
        unsafe {
            library::pinduguil_judge(
                network, columns, rows, map.as_ptr(), map.len(), source.0, source.1, destination.0, destination.1,
                letters.as_ptr(), letters.len(), index.as_mut_ptr(), index.len(),
            )
        }
    }

    pub fn move_on(network: u32, columns: u32, rows: u32, map: &[u8], packet: &mut [u32]) -> u32 {
        unsafe { library::pinduguil_move_on(network, columns, rows, map.as_ptr(), map.len(), packet.as_mut_ptr(), packet.len()) }
    }

    pub fn letters_to_legs(letters: &[u8], out: &mut [u8], written: &mut [u64]) -> u32 {
        let (l, o, w) = (letters.len(), out.len(), written.len());
        unsafe { library::pinduguil_letters_to_legs(letters.as_ptr(), l, out.as_mut_ptr(), o, written.as_mut_ptr(), w) }
    }

    pub fn legs_to_letters(file: &[u8], out: &mut [u8], written: &mut [u64]) -> u32 {
        let (f, o, w) = (file.len(), out.len(), written.len());
        unsafe { library::pinduguil_legs_to_letters(file.as_ptr(), f, out.as_mut_ptr(), o, written.as_mut_ptr(), w) }
    }

    pub fn draw(columns: u32, rows: u32, seed: u32, draws: u32, out: &mut [u8]) -> u32 {
        unsafe { library::pinduguil_draw(columns, rows, seed, draws, out.as_mut_ptr(), out.len()) }
    }
}

/// The number of a refusal, 1 to 10; 18 of a table of sends, 11 and 19 to 23 of letters and legs, 24 of draws.
#[derive(Clone, Copy, Debug, PartialEq, Eq)]
pub struct Refusal(pub u32);

const REFUSED: u32 = 65_536;

fn answer(x: u32) -> Result<u32, Refusal> {
    if x < REFUSED { Ok(x) } else { Err(Refusal(x - REFUSED)) }
}

/// On the first network EN and ES turns are forbidden in even columns, NW and SW in odd ones; on the second odd and even are exchanged, there
/// and in the hop rules.
#[derive(Clone, Copy, Debug, PartialEq, Eq)]
pub enum Network {
    First = 1,
    Second = 2,
}

/// A row and a column, counted from 0. Two numbers in this order, and nothing else, so that a list of places is a list of numbers.
#[derive(Clone, Copy, Debug, Default, PartialEq, Eq)]
#[repr(C)]
pub struct Place {
    pub row: u32,
    pub column: u32,
}

impl Place {
    fn pair(self) -> (u32, u32) {
        (self.row, self.column)
    }
}

/// A box: its lowest row and column, its highest row and column. Two places in this order, and nothing else, so that a list of boxes is a list of
/// numbers.
#[derive(Clone, Copy, Debug, Default, PartialEq, Eq)]
#[repr(C)]
pub struct Corners {
    pub low: Place,
    pub high: Place,
}

#[derive(Clone, Copy, Debug, PartialEq, Eq)]
pub enum Heading {
    East = 1,
    North = 2,
    South = 3,
    West = 4,
}

/// A packet's record.
#[derive(Clone, Copy, Debug, PartialEq, Eq)]
pub struct Packet {
    pub place: Place,
    pub last: Option<Heading>,
    pub destination: Place,
}

#[derive(Clone, Copy, Debug, PartialEq, Eq)]
pub enum Moved {
    Letter(u8),
    Arrived,
    Refused(Refusal),
}

/// What is wrong with a hand-in, in the order in which it is tested, by the papers' numbers. Rule 1 of document 001 is about EN and NW turns,
/// rule 2 about ES and SW, on both networks.
#[derive(Clone, Copy, Debug, PartialEq, Eq)]
pub enum Mistake {
    NoLetter = 11,
    LeavesMesh = 12,
    Reverses = 13,
    BreaksRule1 = 14,
    BreaksRule2 = 17,
    EntersBlock = 15,
    NotArrived = 16,
}

impl Mistake {
    const ALL: [Mistake; 7] = [
        Mistake::NoLetter, Mistake::LeavesMesh, Mistake::Reverses, Mistake::BreaksRule1, Mistake::BreaksRule2, Mistake::EntersBlock,
        Mistake::NotArrived,
    ];
}

#[derive(Clone, Copy, Debug, PartialEq, Eq)]
pub enum Judged {
    /// with the length
    Passed(u64),
    /// what is wrong, and the index of that letter, or the length
    Failed(Mistake, u64),
    /// 1 to 7
    Refused(Refusal),
}

/// The answers of a table in the order of its sends: the letters of each, as a part of the output, or its refusal, 6 to 10.
#[derive(Clone, Debug)]
pub struct Batch<'a> {
    answers: &'a [u32],
    letters: &'a [u8],
}

impl<'a> Batch<'a> {
    /// The letters of the sends that are still to come, one after another: at first of all.
    pub fn letters(&self) -> &'a [u8] {
        self.letters
    }
}

impl<'a> Iterator for Batch<'a> {
    type Item = Result<&'a [u8], Refusal>;

    fn next(&mut self) -> Option<Self::Item> {
        let (first, answers) = self.answers.split_first()?;
        self.answers = answers;
        Some(answer(*first).map(|hops| {
            let (own, letters) = self.letters.split_at(hops as usize);
            self.letters = letters;
            own
        }))
    }
}

/// A mesh and its fault map: columns × rows bytes, row 0 first, 0 sound, 1 faulty.
#[derive(Clone, Copy, Debug)]
pub struct Mesh<'a> {
    pub columns: u32,
    pub rows: u32,
    pub map: &'a [u8],
}

impl Mesh<'_> {
    /// Writes 0 safe, 1 faulty, 2 unsafe for each node, and to `rounds` the number of rounds that took, including the last, in which nothing
    /// changes; answers the number of blocks. On a refusal nothing is written.
    pub fn mark(&self, out: &mut [u8], rounds: &mut u64) -> Result<u32, Refusal> {
        answer(raw::mark(self.columns, self.rows, self.map, out, std::slice::from_mut(rounds)))
    }

    /// Blocks from rectangles: boxes around the faults, two that are close replaced by one until none are (c/pinduguil.h says when). Writes those
    /// that are left to the start of `list`, and answers them: the blocks, by lowest row, then lowest column. There must be an entry of `list` for
    /// each fault, else it is refused by 10; of the first entries, one for each fault, those after the last box become zeros, and later ones are
    /// left alone. On a refusal nothing is written.
    pub fn boxes<'o>(&self, list: &'o mut [Corners]) -> Result<&'o [Corners], Refusal> {
        // Sound: two places are four numbers, and any four numbers are two places.
        let numbers = unsafe { std::slice::from_raw_parts_mut(list.as_mut_ptr().cast(), 4 * list.len()) };
        let boxes = answer(raw::boxes(self.columns, self.rows, self.map, numbers))?;
        Ok(&list[..boxes as usize])
    }

    /// Writes the letters of the hops to the start of `out`, and answers them.
    pub fn route<'o>(&self, network: Network, source: Place, destination: Place, out: &'o mut [u8]) -> Result<&'o [u8], Refusal> {
        let hops = answer(raw::route(network as u32, self.columns, self.rows, self.map, source.pair(), destination.pair(), out))?;
        Ok(&out[..hops as usize])
    }

    /// Routes on both networks, each to its own output; the map is checked and marked once. Answers the network with the shorter route, the
    /// first on a tie or if only it was served, and its letters, the start of its output; or the first network's refusal if both refuse. A
    /// network that was not served, for want of room too, leaves its output alone.
    pub fn pick<'o>(
        &self, source: Place, destination: Place, first: &'o mut [u8], second: &'o mut [u8],
    ) -> Result<(Network, &'o [u8]), Refusal> {
        let (mut letters, mut refusal) = ([0], [0]);
        let (s, d) = (source.pair(), destination.pair());
        match raw::pick(self.columns, self.rows, self.map, s, d, first, second, &mut letters, &mut refusal) {
            0 => Err(Refusal(refusal[0] as u32)),
            1 => Ok((Network::First, &first[..letters[0] as usize])),
            _ => Ok((Network::Second, &second[..letters[0] as usize])),
        }
    }

    /// Routes each send, a source and a destination, with the part of `out` that is still free; the map is checked and marked once. One that
    /// doesn't fit is refused 10 and takes no room. `MOST_HOPS` bytes for each send are always enough. There must be an entry of `answers` for
    /// each, else all is refused by 18.
    pub fn route_batch<'o>(
        &self, network: Network, sends: &[[Place; 2]], answers: &'o mut [u32], out: &'o mut [u8],
    ) -> Result<Batch<'o>, Refusal> {
        // Sound: two places are four numbers.
        let numbers = unsafe { std::slice::from_raw_parts(sends.as_ptr().cast(), 4 * sends.len()) };
        let mut letters = [0];
        match raw::route_batch(network as u32, self.columns, self.rows, self.map, numbers, answers, out, &mut letters) {
            0 => Ok(Batch { answers: &answers[..sends.len()], letters: &out[..letters[0] as usize] }),
            number => Err(Refusal(number)),
        }
    }

    pub fn judge(&self, network: Network, source: Place, destination: Place, letters: &[u8]) -> Judged {
        let mut index = [0];
        let (s, d) = (source.pair(), destination.pair());
        match raw::judge(network as u32, self.columns, self.rows, self.map, s, d, letters, &mut index) {
            0 => Judged::Passed(index[0]),
            number => match Mistake::ALL.iter().copied().find(|m| *m as u32 == number) {
                Some(mistake) => Judged::Failed(mistake, index[0]),
                None => Judged::Refused(Refusal(number)),
            },
        }
    }

    /// Moves the packet by one hop; its record is unchanged unless a letter is answered.
    pub fn move_on(&self, network: Network, packet: &mut Packet) -> Moved {
        let last = packet.last.map_or(0, |h| h as u32);
        let (place, to) = (packet.place, packet.destination);
        let mut numbers = [place.row, place.column, last, to.row, to.column];
        match answer(raw::move_on(network as u32, self.columns, self.rows, self.map, &mut numbers)) {
            Err(why) => Moved::Refused(why),
            Ok(0) => Moved::Arrived,
            Ok(letter) => {
                packet.place = Place { row: numbers[0], column: numbers[1] };
                packet.last = match numbers[2] {
                    1 => Some(Heading::East),
                    2 => Some(Heading::North),
                    3 => Some(Heading::South),
                    4 => Some(Heading::West),
                    _ => None,
                };
                Moved::Letter(letter as u8)
            }
        }
    }
}

/// Draws the map of a seed to the start of `out`: each draw sets a fault at one of the places where faults are allowed (c/pinduguil.h says
/// which). Answers the number of distinct faults, and the mesh with that map, which no operation refuses by 1 to 5. Refused: 1, 2, 24, 10.
pub fn draw(columns: u32, rows: u32, seed: u32, draws: u32, out: &mut [u8]) -> Result<(u32, Mesh<'_>), Refusal> {
    let faults = answer(raw::draw(columns, rows, seed, draws, out))?;
    Ok((faults, Mesh { columns, rows, map: &out[..(columns * rows) as usize] }))
}

/// Writes the file of the letters' straight legs to the start of `out`, and answers it. The file of n letters has at most n + 3 bytes.
/// Refused: 11, 23, 10.
pub fn letters_to_legs<'o>(letters: &[u8], out: &'o mut [u8]) -> Result<&'o [u8], Refusal> {
    written_part(out, |out, written| raw::letters_to_legs(letters, out, written))
}

/// Writes the letters of such a file to the start of `out`, and answers them. A leg has at most 16,384 letters. Refused: 19 to 22, 10.
pub fn legs_to_letters<'o>(file: &[u8], out: &'o mut [u8]) -> Result<&'o [u8], Refusal> {
    written_part(out, |out, written| raw::legs_to_letters(file, out, written))
}

/// The part of `out` that a call has written.
fn written_part<'o>(out: &'o mut [u8], call: impl FnOnce(&mut [u8], &mut [u64]) -> u32) -> Result<&'o [u8], Refusal> {
    let mut written = [0];
    match call(out, &mut written) {
        0 => Ok(&out[..written[0] as usize]),
        number => Err(Refusal(number)),
    }
}
