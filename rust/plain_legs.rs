//! Legs instead of letters (E3 of document 02), both ways, in plain Rust: std only, written the direct way from the paper, apart from the
//! proved code. The differential test compares the library with it, and speed is measured against it.
//! `letters_to_legs` and `legs_to_letters` answer and write as the functions of c/pinduguil.h do.
#![allow(dead_code)]

/// A leg's letter, and how many there are of it.
pub type Leg = (u8, usize);

/// Letters by their direction's code.
const LETTERS: [u8; 4] = *b"ENWS";

const MOST_LETTERS: usize = 16_384; // of a leg
const MOST: usize = 65_535; // of a file's numbers

/// 0, and the number of what was written goes to `written`; or the refusal.
fn answer(done: Result<usize, u32>, written: &mut [u64]) -> u32 {
    match done {
        Err(why) => why,
        Ok(n) => {
            if let Some(first) = written.first_mut() {
                *first = n as u64;
            }
            0
        }
    }
}

// ---- Letters to legs

pub fn letters_to_legs(letters: &[u8], out: &mut [u8], written: &mut [u64]) -> u32 {
    answer(write_file(letters, out), written)
}

fn write_file(letters: &[u8], out: &mut [u8]) -> Result<usize, u32> {
    let file = file_of(&legs_of_letters(letters)?);
    out.get_mut(..file.len()).ok_or(10u32)?.copy_from_slice(&file);
    Ok(file.len())
}

/// Refusals 11 and 23.
fn legs_of_letters(letters: &[u8]) -> Result<Vec<Leg>, u32> {
    if letters.iter().any(|x| !matches!(x, b'E' | b'N' | b'S' | b'W')) {
        return Err(11);
    }
    let legs: Vec<Leg> = letters.chunk_by(|a, b| a == b).map(|run| (run[0], run.len())).collect();
    if legs.len() > MOST || legs.iter().any(|leg| leg.1 > MOST_LETTERS) {
        return Err(23);
    }
    Ok(legs)
}

pub fn file_of(legs: &[Leg]) -> Vec<u8> {
    let mut file = vec![];
    push_number(&mut file, legs.len());
    for &(letter, n) in legs {
        push_number(&mut file, (n - 1) * 4 + code(letter));
    }
    file
}

fn code(letter: u8) -> usize {
    match letter {
        b'E' => 0,
        b'N' => 1,
        b'W' => 2,
        _ => 3,
    }
}

fn push_number(file: &mut Vec<u8>, mut number: usize) {
    while number > 127 {
        file.push(number as u8 | 128);
        number >>= 7;
    }
    file.push(number as u8);
}

// ---- Legs to letters

pub fn legs_to_letters(file: &[u8], out: &mut [u8], written: &mut [u64]) -> u32 {
    answer(write_letters(file, out), written)
}

fn write_letters(file: &[u8], out: &mut [u8]) -> Result<usize, u32> {
    let legs = legs_of_file(file)?;
    let n = legs.iter().map(|leg| leg.1).sum();
    let mut out = out.get_mut(..n).ok_or(10u32)?;
    for (letter, n) in legs {
        let (leg, rest) = out.split_at_mut(n);
        leg.fill(letter);
        out = rest;
    }
    Ok(n)
}

/// Refusals 19 to 22.
pub fn legs_of_file(mut file: &[u8]) -> Result<Vec<Leg>, u32> {
    let mut legs: Vec<Leg> = vec![];
    for _ in 0..next_number(&mut file)? {
        let number = next_number(&mut file)?;
        let leg = (LETTERS[number % 4], number / 4 + 1);
        if legs.last().is_some_and(|last| last.0 == leg.0) {
            return Err(21);
        }
        legs.push(leg);
    }
    if !file.is_empty() {
        return Err(22);
    }
    Ok(legs)
}

/// Takes a number off the front of a file; refusals 19 and 20.
fn next_number(file: &mut &[u8]) -> Result<usize, u32> {
    let mut number = 0;
    for i in 0..3 {
        let (&group, rest) = file.split_first().ok_or(19u32)?;
        *file = rest;
        number |= (group as usize & 127) << (7 * i);
        if group < 128 {
            let needless = group == 0 && i > 0;
            return if needless || number > MOST { Err(20) } else { Ok(number) };
        }
    }
    Err(20)
}
