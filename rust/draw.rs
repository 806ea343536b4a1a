//! Prints the exercise sheet of a number: the mesh line and the fault lines of the map that it draws, in the order of the map. Piped into the sheet
//! program it says how many blocks the faults make; with send lines after it, their routes too:
//!   draw 16 12 7 9 | sheet
//!   { draw 16 12 7 9; cat sends.txt; } | sheet
//! To build it:
//!   c/library && rustc -O rust/draw.rs -L target/staticlib -l static=pinduguil -o target/draw
mod wrapper;
use std::io::Write;
use std::process::ExitCode;
use wrapper::{draw, Mesh, Refusal, MOST_DRAWS, MOST_NODES};

const USAGE: &str = "usage: draw COLUMNS ROWS NUMBER DRAWS\n  \
    prints the sheet of a number below 4294967296: a mesh of 1 to 64 columns and rows, and the faults of at most 1000 draws";

/// The four numbers of a call, or what is wrong with them.
fn numbers(arguments: &[String]) -> Result<[u32; 4], String> {
    let [columns, rows, number, draws] = arguments else { return Err(USAGE.into()) };
    let read = |name: &str, text: &String| {
        let digits = !text.is_empty() && text.bytes().all(|b| b.is_ascii_digit());
        text.parse().ok().filter(|_| digits).ok_or_else(|| format!("draw: {name} is not a whole number below 4294967296: '{text}'"))
    };
    Ok([read("COLUMNS", columns)?, read("ROWS", rows)?, read("NUMBER", number)?, read("DRAWS", draws)?])
}

/// A refusal in words.
fn in_words(why: Refusal, [columns, rows, _, draws]: [u32; 4]) -> String {
    match why.0 {
        1 => format!("draw: COLUMNS is not 1 to 64: {columns}"),
        2 => format!("draw: ROWS is not 1 to 64: {rows}"),
        24 if draws > MOST_DRAWS => format!("draw: DRAWS is above {MOST_DRAWS}: {draws}"),
        24 => format!("draw: no fault is allowed on {columns} columns and {rows} rows, only on 5 columns and 3 rows or more"),
        other => format!("draw: refused by {other}"),
    }
}

/// The mesh line, and a line for each fault in the order of the map.
fn sheet(mesh: &Mesh) -> String {
    let mut text = format!("mesh {} {}\n", mesh.columns, mesh.rows);
    for (row, nodes) in mesh.map.chunks(mesh.columns as usize).enumerate() {
        for (column, _) in nodes.iter().enumerate().filter(|(_, node)| **node == 1) {
            text += &format!("fault {row} {column}\n");
        }
    }
    text
}

fn run(arguments: &[String]) -> Result<(), String> {
    let call = numbers(arguments)?;
    let [columns, rows, number, draws] = call;
    let mut map = [0; MOST_NODES];
    let (_, mesh) = draw(columns, rows, number, draws, &mut map).map_err(|why| in_words(why, call))?;
    let mut out = std::io::stdout();
    out.write_all(sheet(&mesh).as_bytes()).and_then(|()| out.flush()).map_err(|_| "draw: cannot write".into())
}

fn main() -> ExitCode {
    let arguments: Vec<String> = std::env::args_os().skip(1).map(|text| text.to_string_lossy().into_owned()).collect();
    match run(&arguments) {
        Ok(()) => ExitCode::SUCCESS,
        Err(message) => {
            eprintln!("{message}");
            ExitCode::FAILURE
        }
    }
}
