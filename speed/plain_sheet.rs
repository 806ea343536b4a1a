// The sheet program in plain Rust, for comparing speed: std only, written the direct way.
#[path = "../rust/plain_mesh.rs"]
mod plain_mesh;
use plain_mesh::{check_map, Mesh, Network};
use std::io::{Read, Write};

fn numbers(text: &[u8], n: usize) -> Option<Vec<u32>> {
    let mut found = Vec::with_capacity(n);
    let mut rest = text;
    for _ in 0..n {
        rest = rest.strip_prefix(b" ")?;
        let digits = rest.iter().take_while(|x| x.is_ascii_digit()).count();
        if digits == 0 || digits > 3 {
            return None;
        }
        found.push(rest[..digits].iter().fold(0, |v, x| v * 10 + (x - b'0') as u32));
        rest = &rest[digits..];
    }
    if rest.is_empty() {
        Some(found)
    } else {
        None
    }
}

/// The marked mesh, and the line that says so.
fn begin(columns: u32, rows: u32, map: &[u8], out: &mut Vec<u8>) -> Option<Mesh> {
    match Mesh::new(columns, rows, map) {
        Ok(mesh) => {
            writeln!(out, "blocks {}", mesh.blocks().len()).unwrap();
            Some(mesh)
        }
        Err(k) => {
            writeln!(out, "no {}", k).unwrap();
            None
        }
    }
}

fn main() {
    let mut text = Vec::new();
    std::io::stdin().read_to_end(&mut text).unwrap();
    let mut out = Vec::new();
    run(&text, &mut out);
    std::io::stdout().write_all(&out).unwrap();
}

fn run(text: &[u8], out: &mut Vec<u8>) {
    let mut size: Option<(u32, u32)> = None;
    let mut map = Vec::new();
    let mut mesh: Option<Mesh> = None;
    let mut letters = Vec::new();
    let mut number = 0;
    for line in text.split_inclusive(|x| *x == b'\n') {
        number += 1;
        let bad = |out: &mut Vec<u8>| writeln!(out, "line {}", number).unwrap();
        let Some(words) = line.strip_suffix(b"\n") else { return bad(out) };
        if number > 65535 {
            return bad(out);
        }
        if let Some(v) = words.strip_prefix(b"mesh").and_then(|t| numbers(t, 2)) {
            if size.is_some() {
                return bad(out);
            }
            map = vec![0; (v[0] * v[1]) as usize];
            if let Err(k) = check_map(v[0], v[1], &map) {
                return writeln!(out, "no {}", k).unwrap();
            }
            size = Some((v[0], v[1]));
            continue;
        }
        let Some((columns, rows)) = size else { return bad(out) };
        if let Some(v) = words.strip_prefix(b"fault").and_then(|t| numbers(t, 2)) {
            if mesh.is_some() || v[0] >= rows || v[1] >= columns {
                return bad(out);
            }
            map[(v[0] * columns + v[1]) as usize] = 1;
        } else if let Some(v) = words.strip_prefix(b"send").and_then(|t| numbers(t, 4)) {
            if mesh.is_none() {
                mesh = begin(columns, rows, &map, out);
            }
            let Some(m) = &mesh else { return };
            match m.route(Network::First, (v[0], v[1]), (v[2], v[3]), &mut letters) {
                Ok(()) if letters.is_empty() => out.extend_from_slice(b"ok 0\n"),
                Ok(()) => {
                    write!(out, "ok {} ", letters.len()).unwrap();
                    out.extend_from_slice(&letters);
                    out.push(b'\n');
                }
                Err(k) => writeln!(out, "no {}", k).unwrap(),
            }
        } else {
            return bad(out);
        }
    }
    match size {
        None => writeln!(out, "line {}", number + 1).unwrap(),
        Some((columns, rows)) if mesh.is_none() => {
            begin(columns, rows, &map, out);
        }
        Some(_) => {}
    }
}
