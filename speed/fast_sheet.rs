//! The sheet program in plain Rust, written for speed: std only, 64 nodes to a word (speed/fast_mesh.rs), lines read and printed by hand.
mod fast_mesh;
use fast_mesh::Mesh;
use std::io::{Read, Write};

/// Read and written this many bytes at a time.
const PART: usize = 65_536;
/// The longest line that is not malformed, its newline included.
const LONGEST: usize = 21;
/// A line is looked at through this many bytes, whatever stands after it.
const LOOK: usize = 32;

/// What is printed, and how much of it there is.
struct Answers {
    bytes: Vec<u8>,
    at: usize,
}

impl Answers {
    fn put(&mut self, text: &[u8]) {
        self.bytes[self.at..self.at + text.len()].copy_from_slice(text);
        self.at += text.len();
    }

    fn put_number(&mut self, n: usize) {
        if n > 9 {
            self.put_number(n / 10);
        }
        self.put(&[b'0' + (n % 10) as u8]);
    }

    fn put_line(&mut self, word: &[u8], n: usize) {
        self.put(word);
        self.put_number(n);
        self.put(b"\n");
    }

    /// The answer to a send. Most routes have ten to ninety-nine hops: the letters are written where they stand then.
    fn put_route(&mut self, mesh: &Mesh, [r, c, to_r, to_c]: [usize; 4]) {
        let start = self.at + 6;
        match mesh.route((r, c), (to_r, to_c), &mut self.bytes, start) {
            Ok(0) => self.put(b"ok 0\n"),
            Ok(n @ 10..=99) => {
                self.put(&[b'o', b'k', b' ', b'0' + (n / 10) as u8, b'0' + (n % 10) as u8, b' ']);
                self.at += n;
                self.put(b"\n");
            }
            Ok(n) => {
                let digits = if n < 10 { 1 } else if n < 1000 { 3 } else { 4 };
                self.bytes.copy_within(start..start + n, start + digits - 2);
                self.put(b"ok ");
                self.put_number(n);
                self.put(b" ");
                self.at += n;
                self.put(b"\n");
            }
            Err(why) => self.put(&[b'n', b'o', b' ', b'0' + why, b'\n']),
        }
    }
}

struct Sheet {
    size: Option<(usize, usize)>, // columns, rows
    faults: [u64; 64],
    mesh: Option<Mesh>,
    number: usize,
    over: bool,
}

/// Numbers of one to three digits after a space each, and then a newline; also where the line ends.
fn numbers<const N: usize>(line: &[u8; LOOK], mut at: usize) -> Option<([usize; N], usize)> {
    let mut found = [0; N];
    let digit = |at: usize| line[at % LOOK].wrapping_sub(b'0') as usize;
    for v in &mut found {
        if line[at % LOOK] != b' ' || digit(at + 1) > 9 {
            return None;
        }
        *v = digit(at + 1);
        at += 2;
        for _ in 0..2 {
            let d = digit(at);
            if d > 9 {
                break;
            }
            *v = *v * 10 + d;
            at += 1;
        }
    }
    if line[at % LOOK] == b'\n' { Some((found, at + 1)) } else { None }
}

impl Sheet {
    /// Marks the mesh, unless that is done, and says so. False ends the run.
    fn begin(&mut self, columns: usize, rows: usize, out: &mut Answers) -> bool {
        if self.mesh.is_some() {
            return true;
        }
        self.mesh = Mesh::new(columns, rows, &self.faults);
        match &self.mesh {
            Some(mesh) => out.put_line(b"blocks ", mesh.blocks()),
            None => out.put(b"no 5\n"),
        }
        self.over = self.mesh.is_none();
        !self.over
    }

    /// Answers a line; its length, or none if it is malformed, too early, too late, or a fault off the mesh.
    fn answer(&mut self, line: &[u8; LOOK], out: &mut Answers) -> Option<usize> {
        if line.starts_with(b"send") {
            let (places, length) = numbers(line, 4)?;
            let (columns, rows) = self.size?;
            if self.begin(columns, rows, out) {
                out.put_route(self.mesh.as_ref()?, places);
            }
            return Some(length);
        }
        if line.starts_with(b"fault") {
            let ([row, column], length) = numbers(line, 5)?;
            let (columns, rows) = self.size?;
            if self.mesh.is_some() || row >= rows || column >= columns {
                return None;
            }
            self.faults[row] |= 1 << column;
            return Some(length);
        }
        if !line.starts_with(b"mesh") || self.size.is_some() {
            return None;
        }
        let ([columns, rows], length) = numbers(line, 4)?;
        self.size = Some((columns, rows));
        if !(1..=64).contains(&columns) || !(1..=64).contains(&rows) {
            out.put(if (1..=64).contains(&columns) { b"no 2\n" } else { b"no 1\n" });
            self.over = true;
        }
        Some(length)
    }

    /// Answers the lines that stand whole in `text`, up to `end`, and answers how far that is. What the last part leaves over is malformed.
    fn answer_lines(&mut self, text: &[u8], end: usize, is_last: bool, out: &mut Answers, output: &mut impl Write) -> usize {
        let mut at = 0;
        while !self.over {
            let is_whole = end - at >= LONGEST || text[at..end].contains(&b'\n');
            if !is_whole && (!is_last || at == end) {
                break;
            }
            self.number += 1;
            let line = text[at..].first_chunk().unwrap();
            match if is_whole && self.number < 65_536 { self.answer(line, out) } else { None } {
                Some(length) => at += length,
                None => {
                    out.put_line(b"line ", self.number);
                    self.over = true;
                }
            }
            if out.at > PART {
                output.write_all(&out.bytes[..out.at]).unwrap();
                out.at = 0;
            }
        }
        at
    }
}

fn run(input: &mut impl Read, output: &mut impl Write) {
    let mut text = vec![0; PART + LOOK];
    let mut out = Answers { bytes: vec![0; PART + 64 + fast_mesh::ROOM], at: 0 };
    let mut sheet = Sheet { size: None, faults: [0; 64], mesh: None, number: 0, over: false };
    let mut end = 0;
    loop {
        let n = input.read(&mut text[end..PART]).unwrap();
        end += n;
        let used = sheet.answer_lines(&text, end, n == 0, &mut out, output);
        if n == 0 || sheet.over {
            break;
        }
        text.copy_within(used..end, 0);
        end -= used;
    }
    match sheet.size {
        _ if sheet.over => {}
        None => out.put(b"line 1\n"),
        Some((columns, rows)) => {
            sheet.begin(columns, rows, &mut out);
        }
    }
    output.write_all(&out.bytes[..out.at]).unwrap();
}

fn main() {
    run(&mut std::io::stdin().lock(), &mut std::io::stdout().lock());
}
