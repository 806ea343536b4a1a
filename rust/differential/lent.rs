//! What is lent to the library, between margins that no call may touch, and how it is compared afterwards.
use std::fmt::Debug;
use std::hint::black_box;
use std::ptr;

const MARGIN: usize = 8;

fn pattern(n: usize, seed: u32) -> Vec<u8> {
    (0..n + 2 * MARGIN).map(|i| (i as u32).wrapping_mul(151).wrapping_add(seed) as u8).collect()
}

/// What a call was lent, afterwards.
pub trait Lent: Debug {
    /// In bytes.
    fn size(&self) -> u64;
    /// Whether it holds what it should.
    fn is_right(&self) -> bool;
}

/// What is only read. No call may change any of it.
#[derive(Debug)]
pub struct Input<T> {
    lent: Vec<T>,
    before: Vec<T>,
}

impl<T: Copy + From<u8>> Input<T> {
    pub fn new(given: &[T]) -> Input<T> {
        let mut lent: Vec<T> = pattern(given.len(), 0).into_iter().map(T::from).collect();
        lent[MARGIN..MARGIN + given.len()].copy_from_slice(given);
        Input { before: lent.clone(), lent }
    }

    pub fn given(&self) -> &[T] {
        &self.lent[MARGIN..self.lent.len() - MARGIN]
    }
}

impl<T: PartialEq + Debug> Lent for Input<T> {
    fn size(&self) -> u64 {
        size_of_val(&self.lent[..]) as u64
    }

    /// The compiler may not take it for granted.
    fn is_right(&self) -> bool {
        black_box(&self.lent) == black_box(&self.before)
    }
}

/// What the library may write to, and a copy that the plain code writes to. Both must hold the same afterwards, margins included.
#[derive(Debug)]
pub struct Output<T> {
    lent: Vec<T>,
    plain: Vec<T>,
    margin: usize,
}

impl<T: Clone + PartialEq> Output<T> {
    /// With margins of this many elements.
    pub fn new(filled: Vec<T>, margin: usize) -> Output<T> {
        Output { plain: filled.clone(), lent: filled, margin }
    }

    pub fn room(&mut self) -> &mut [T] {
        let end = self.lent.len() - self.margin;
        &mut self.lent[self.margin..end]
    }

    pub fn plain(&mut self) -> &mut [T] {
        let end = self.plain.len() - self.margin;
        &mut self.plain[self.margin..end]
    }
}

impl<T: PartialEq + Debug> Lent for Output<T> {
    fn size(&self) -> u64 {
        size_of_val(&self.lent[..]) as u64
    }

    fn is_right(&self) -> bool {
        self.lent == self.plain
    }
}

/// So many bytes of a pattern.
pub fn bytes(length: usize, seed: u32) -> Output<u8> {
    Output::new(pattern(length, seed), MARGIN)
}

/// So many numbers at random, with a margin of one.
pub fn numbers<T: Clone + PartialEq>(length: usize, mut draw: impl FnMut() -> T) -> Output<T> {
    Output::new((0..length + 2).map(|_| draw()).collect(), 1)
}

/// A slice's pointer as C has it: null where there is nothing.
pub fn start<T>(xs: &[T]) -> *const T {
    if xs.is_empty() { ptr::null() } else { xs.as_ptr() }
}

pub fn start_mut<T>(xs: &mut [T]) -> *mut T {
    if xs.is_empty() { ptr::null_mut() } else { xs.as_mut_ptr() }
}

/// Prints the case and ends the test.
pub fn differs(what: &str, case: &dyn Debug, detail: String) -> ! {
    println!("DIFFERENCE in {what}: {case:?}");
    println!("{detail}");
    std::process::exit(1)
}

/// What was compared.
#[derive(Default)]
pub struct Compared {
    pub requests: u64,
    pub inputs: u64,  // bytes
    pub outputs: u64, // bytes
}

impl Compared {
    /// Every other call goes as C writes it, with null for an empty slice. Null pointers are counted, for each slice of the call.
    pub fn goes_as_c<const N: usize>(&self, lengths: [usize; N], nulls: &mut [u64; N]) -> bool {
        let as_c = self.requests % 2 == 0;
        for (null, n) in nulls.iter_mut().zip(lengths) {
            *null += (as_c && n == 0) as u64;
        }
        as_c
    }

    /// Compares the answers of the library and of the plain code, what was written and what was only read.
    pub fn request(
        &mut self, what: &str, case: &dyn Debug, inputs: &[&dyn Lent], outputs: &[&dyn Lent], answers: [u32; 2], detail: impl Fn() -> String,
    ) {
        self.requests += 1;
        self.inputs += inputs.iter().map(|lent| lent.size()).sum::<u64>();
        self.outputs += outputs.iter().map(|lent| lent.size()).sum::<u64>();
        if answers[0] != answers[1] {
            differs(what, case, format!("{}: answer {}, expected {}", detail(), answers[0], answers[1]));
        }
        for lent in inputs.iter().chain(outputs).filter(|lent| !lent.is_right()) {
            differs(what, case, format!("{}: answer {}\n{lent:?}", detail(), answers[0]));
        }
    }
}

/// Whether each of these answers, or of these null pointers, was met.
pub fn met(counts: &[u64], these: impl IntoIterator<Item = usize>) -> bool {
    these.into_iter().all(|i| counts[i] > 0)
}
