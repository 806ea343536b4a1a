//! Letters to legs, and legs to letters.
use crate::lent::{self, differs, met, start, start_mut, Compared, Input};
use crate::plain_legs;
use crate::random::Random;
use crate::wrapper::raw::{self, library};
use crate::wrapper::{self, Refusal};

#[derive(Default)]
pub struct Legs {
    to_legs: Counts,
    to_letters: Counts,
}

#[derive(Default)]
struct Counts {
    answers: [u64; 24], // by refusal; 0 answered
    nulls: [u64; 3],    // what is given, output, written
    back: u64,          // turned back to what was given
    most: usize,        // bytes or letters that were written
}

type Call = fn(&[u8], &mut [u8], &mut [u64]) -> u32;
type Turn = for<'o> fn(&[u8], &'o mut [u8]) -> Result<&'o [u8], Refusal>;

/// One of the two ways, by its functions.
struct Way {
    name: &'static str,
    plain: Call,
    raw: Call,
    library: unsafe extern "C" fn(*const u8, usize, *mut u8, usize, *mut u64, usize) -> u32,
    turns: [Turn; 2], // there, back
}

const TO_LEGS: Way = Way {
    name: "letters_to_legs",
    plain: plain_legs::letters_to_legs,
    raw: raw::letters_to_legs,
    library: library::pinduguil_letters_to_legs,
    turns: [wrapper::letters_to_legs, wrapper::legs_to_letters],
};

const TO_LETTERS: Way = Way {
    name: "legs_to_letters",
    plain: plain_legs::legs_to_letters,
    raw: raw::legs_to_letters,
    library: library::pinduguil_legs_to_letters,
    turns: [wrapper::legs_to_letters, wrapper::letters_to_legs],
};

impl Counts {
    /// A few calls, on outputs that are too short for n bytes, just long enough or longer.
    fn check(&mut self, rng: &mut Random, way: &Way, given: &[u8], n: usize, compared: &mut Compared) {
        let input = Input::new(given);
        // an odd number, so that each way goes as C and as Rust
        for _ in 0..3 {
            let length = match rng.below(5) {
                0 => 0,
                1 => n.saturating_sub(1),
                2 => n,
                3 => n + 1,
                _ => n + rng.below(40),
            };
            let mut out = lent::bytes(length, rng.next());
            let mut written = lent::numbers(rng.below(3), || rng.next() as u64 | 1 << 40);
            let expected = (way.plain)(input.given(), out.plain(), written.plain());
            let answer = self.call(way, input.given(), out.room(), written.room(), compared);
            compared.request(way.name, &given, &[&input], &[&out, &written], [answer, expected], || format!("output length {length}"));
            self.answers[answer as usize] += 1;
            if answer == 0 {
                self.check_back(way, given, length);
            }
        }
    }

    fn call(&mut self, way: &Way, given: &[u8], out: &mut [u8], written: &mut [u64], compared: &Compared) -> u32 {
        let (g, o, w) = (given.len(), out.len(), written.len());
        if !compared.goes_as_c([g, o, w], &mut self.nulls) {
            return (way.raw)(given, out, written);
        }
        unsafe { (way.library)(start(given), g, start_mut(out), o, start_mut(written), w) }
    }

    /// What one way accepts the other turns back, with just room enough.
    fn check_back(&mut self, way: &Way, given: &[u8], length: usize) {
        let (mut there, mut back) = (vec![0; length], vec![0; given.len()]);
        let [to, from] = way.turns;
        let there = to(given, &mut there);
        let back = there.and_then(|there| from(there, &mut back));
        if back != Ok(given) {
            differs(way.name, &given, format!("there {there:?}, back {back:?}"));
        }
        self.back += 1;
        self.most = self.most.max(there.map_or(0, <[u8]>::len));
    }
}

/// A direction's code and a length.
type Leg = (usize, usize);

/// Mostly short legs; some where a number takes a group more, or is too large; seldom one in its forerunner's direction.
fn draw_legs(rng: &mut Random) -> Vec<Leg> {
    let n = if rng.one_in(40) { 120 + rng.below(16) } else { rng.below(12) };
    let mut code = 0;
    let leg = |_| {
        if !rng.one_in(60) {
            code = (code + 1 + rng.below(3)) % 4;
        }
        let length = match rng.below(100) {
            0 => [4096, 4097, 16_384, 16_385][rng.below(4)],
            1 => 1 + rng.below(16_384),
            2..=11 => 31 + rng.below(4),
            12..=25 => 1 + rng.below(200),
            _ => 1 + rng.below(6),
        };
        (code, length)
    };
    (0..n).map(leg).collect()
}

fn letters_of(legs: &[Leg]) -> Vec<u8> {
    legs.iter().flat_map(|&(code, length)| vec![b"ENWS"[code]; length]).collect()
}

fn groups(number: usize) -> Vec<u8> {
    let group = |i: usize| (number >> (7 * i)) as u8 & 127;
    match number {
        0..=127 => vec![group(0)],
        128..=16_383 => vec![group(0) | 128, group(1)],
        _ => vec![group(0) | 128, group(1) | 128, group(2)],
    }
}

/// Also of legs that no file may have.
fn file_of(legs: &[Leg]) -> Vec<u8> {
    let mut file = groups(legs.len());
    for &(code, length) in legs {
        file.extend(groups((length - 1) * 4 + code));
    }
    file
}

/// Whether these are the legs of a file.
fn are_lawful(legs: &[Leg]) -> bool {
    let differ = legs.windows(2).all(|pair| pair[0].0 != pair[1].0);
    differ && legs.len() <= 65_535 && legs.iter().all(|leg| leg.1 <= 16_384)
}

fn damage_letters(rng: &mut Random, letters: &mut [u8]) {
    if letters.is_empty() {
        return;
    }
    let i = rng.below(letters.len());
    match rng.below(8) {
        0 => letters[i] = rng.next() as u8,
        1 => letters[i] = b"ENSWensw"[rng.below(8)],
        _ => {}
    }
}

fn damage_file(rng: &mut Random, file: &mut Vec<u8>) {
    let i = rng.below(file.len());
    match rng.below(10) {
        0 => file.truncate(i),
        1 => file[i] = rng.next() as u8,
        2 => file[i] ^= 128,
        3 => file.extend(vec![rng.next() as u8; 1 + rng.below(3)]),
        4 => {
            // a needless group after a number's last
            let last = i + file[i..].iter().take_while(|&&x| x > 127).count();
            file[last] |= 128;
            file.insert(last + 1, 0);
        }
        _ => {}
    }
}

/// All files of so many bytes that stand among these.
fn files(bytes: &[u8], length: u32) -> impl Iterator<Item = Vec<u8>> + '_ {
    let n = bytes.len();
    (0..n.pow(length)).map(move |i| (0..length).map(|k| bytes[i / n.pow(k) % n]).collect())
}

impl Legs {
    pub fn check(&mut self, rng: &mut Random, compared: &mut Compared) {
        let all: Vec<_> = (0..=255).collect();
        for length in 0..3 {
            self.check_files(rng, files(&all, length), compared);
        }
        for length in 3..5 {
            self.check_files(rng, files(&[0, 1, 2, 3, 4, 5, 126, 127, 128, 129, 130, 131, 254, 255], length), compared);
        }
        for _ in 0..10 {
            self.check_limits(rng, compared);
        }
        for _ in 0..60_000 {
            let legs = draw_legs(rng);
            self.check_legs(rng, &legs, compared);
        }
    }

    /// One leg by such a number, and so many legs; then the most letters, a thousand million, without room for them.
    fn check_limits(&mut self, rng: &mut Random, compared: &mut Compared) {
        let legs = |n: usize, length: usize| (0..n).map(|i| (i % 4, length)).collect::<Vec<Leg>>();
        for n in [127, 128, 16_383, 16_384, 65_535, 65_536] {
            self.check_legs(rng, &[(n % 4, n / 4 + 1)], compared);
            self.check_legs(rng, &legs(n, 1), compared);
        }
        self.check_legs(rng, &legs(20, 16_384), compared);
        self.to_letters.check(rng, &TO_LETTERS, &file_of(&legs(65_535, 16_384)), 40, compared);
    }

    fn check_files(&mut self, rng: &mut Random, files: impl Iterator<Item = Vec<u8>>, compared: &mut Compared) {
        for file in files {
            let n = plain_legs::legs_of_file(&file).map_or(0, |legs| legs.iter().map(|leg| leg.1).sum());
            self.to_letters.check(rng, &TO_LETTERS, &file, n, compared);
        }
    }

    /// Their letters and their file, each perhaps damaged.
    fn check_legs(&mut self, rng: &mut Random, legs: &[Leg], compared: &mut Compared) {
        let (mut letters, mut file) = (letters_of(legs), file_of(legs));
        let (l, f) = (letters.len(), file.len());
        if are_lawful(legs) && wrapper::letters_to_legs(&letters, &mut vec![0; f]) != Ok(&file[..]) {
            differs("letters_to_legs", &legs, format!("the file is {file:?}"));
        }
        damage_letters(rng, &mut letters);
        damage_file(rng, &mut file);
        self.to_legs.check(rng, &TO_LEGS, &letters, f, compared);
        self.to_letters.check(rng, &TO_LETTERS, &file, l, compared);
    }

    /// Prints counts, and says whether every answer, the most legs and every null pointer was met.
    pub fn report(&self) -> bool {
        for (way, given, counts) in [("letters to legs", "letters", &self.to_legs), ("legs to letters", "file", &self.to_letters)] {
            println!("{way}: answered, refusals 1 to 23: {:?}; null for {given}, output, written: {:?}", counts.answers, counts.nulls);
            println!("    {} turned back; {} bytes written at most", counts.back, counts.most);
        }
        let whole = met(&self.to_legs.answers, [0, 10, 11, 23]) && met(&self.to_letters.answers, [0, 10, 19, 20, 21, 22]);
        let long = self.to_legs.most > 65_535 && self.to_letters.most > 65_535;
        whole && long && met(&self.to_legs.nulls, 0..3) && met(&self.to_letters.nulls, 0..3)
    }
}
