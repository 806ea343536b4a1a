//! Loads a map and marks it, and lists its boxes; on each network routes a packet, judges the route, writes its file of legs and reads it back,
//! and moves the packet along it; picks the better network; routes a table of sends, with room for all and without; then what bad requests,
//! hand-ins and files are answered; and a map drawn by number, marked and routed on, with its boxes.
//!   c/library && rustc -O rust/loader.rs -L target/staticlib -l static=pinduguil -o loader && ./loader
mod wrapper;
use wrapper::{draw, legs_to_letters, letters_to_legs, Corners, Mesh, Moved, Network, Packet, Place, Refusal, MOST_HOPS};

/// A route's file, and the letters that are read from it.
fn show_file(letters: &[u8]) -> Result<(), Refusal> {
    let (mut file, mut out) = (vec![0; letters.len() + 3], vec![0; MOST_HOPS]);
    let file = letters_to_legs(letters, &mut file)?;
    println!("file {file:02x?}");
    println!("letters {}", String::from_utf8_lossy(legs_to_letters(file, &mut out)?));
    Ok(())
}

/// The boxes of a map, with room for so many.
fn show_boxes(mesh: &Mesh, room: usize) {
    match mesh.boxes(&mut vec![Corners::default(); room]) {
        Err(why) => println!("no {}", why.0),
        Ok(boxes) => {
            for Corners { low, high } in boxes {
                println!("box ({}, {}) to ({}, {})", low.row, low.column, high.row, high.column);
            }
        }
    }
}

fn main() {
    let (columns, rows) = (10, 8);
    let mut map = vec![0; columns * rows];
    map[3 * columns + 4] = 1;
    map[4 * columns + 5] = 1;
    let mesh = Mesh { columns: columns as u32, rows: rows as u32, map: &map };

    let (mut marks, mut rounds) = (vec![0; map.len()], 0);
    let blocks = mesh.mark(&mut marks, &mut rounds);
    println!("blocks {blocks:?}, rounds {rounds}");
    show_boxes(&mesh, 2);

    let (source, destination) = (Place { row: 1, column: 5 }, Place { row: 6, column: 5 });
    let mut out = vec![0; MOST_HOPS];
    for network in [Network::First, Network::Second] {
        match mesh.route(network, source, destination, &mut out) {
            Err(why) => println!("no {}", why.0),
            Ok(letters) => {
                println!("{network:?} network: ok {} {}", letters.len(), String::from_utf8_lossy(letters));
                println!("{:?}", mesh.judge(network, source, destination, letters));
                if let Err(why) = show_file(letters) {
                    println!("no {}", why.0);
                }
            }
        }

        let mut packet = Packet { place: source, last: None, destination };
        while let Moved::Letter(letter) = mesh.move_on(network, &mut packet) {
            println!("{} to ({}, {})", letter as char, packet.place.row, packet.place.column);
        }
    }

    let side = Place { row: 4, column: 6 };
    let above = Place { row: 5, column: 4 };
    let (west, east) = (Place { row: 3, column: 0 }, Place { row: 3, column: 9 });
    // the second is shorter; a tie; the first alone; the second alone, for want of room; neither
    let mut other = vec![0; MOST_HOPS];
    for (source, destination, room) in [
        (source, destination, MOST_HOPS), (west, east, MOST_HOPS), (west, destination, MOST_HOPS), (west, east, 12), (source, side, MOST_HOPS),
    ] {
        let picked = mesh.pick(source, destination, &mut out[..room], &mut other);
        println!("{:?}", picked.map(|(network, letters)| (network, String::from_utf8_lossy(letters))));
    }

    let sends = [[source, destination], [west, east], [west, side], [east, Place { row: 3, column: 8 }]];
    let mut answers = [0; 4];
    let mut room = vec![0; sends.len() * MOST_HOPS];
    for out in [&mut room[..], &mut [0; 12]] {
        match mesh.route_batch(Network::First, &sends, &mut answers, out) {
            Err(why) => println!("no {}", why.0),
            Ok(batch) => {
                println!("table of {} letters", batch.letters().len());
                for answer in batch {
                    println!("{:?}", answer.map(String::from_utf8_lossy));
                }
            }
        }
    }
    println!("{:?}", mesh.route_batch(Network::First, &sends, &mut answers[..3], &mut room).err());

    println!("{:?}", mesh.route(Network::First, source, side, &mut out));
    println!("{:?}", mesh.route(Network::First, source, above, &mut out).map(String::from_utf8_lossy));
    println!("{:?}", mesh.route(Network::Second, west, above, &mut out));
    println!("{:?}", Mesh { columns: 65, ..mesh }.mark(&mut marks, &mut rounds));
    show_boxes(&mesh, 1);
    show_boxes(&Mesh { rows: 0, ..mesh }, 2);
    println!("{:?}", mesh.judge(Network::First, Place { row: 3, column: 5 }, destination, b"N"));
    println!("{:?}", mesh.judge(Network::First, source, destination, b"NX"));
    for letters in [b"EN", b"ES", b"NW"] {
        let [first, second] = [Network::First, Network::Second].map(|network| mesh.judge(network, source, destination, letters));
        println!("{}: {first:?}, {second:?}", String::from_utf8_lossy(letters));
    }
    println!("{:?}", letters_to_legs(b"NX", &mut out));
    for file in [&[2, 0][..], &[1, 128, 0], &[2, 0, 4], &[1, 0, 0]] {
        println!("file {file:02x?}: {:?}", legs_to_letters(file, &mut out));
    }

    for (columns, rows, draws) in [(10, 8, 6), (10, 8, 1001), (4, 8, 1), (65, 8, 1), (10, 0, 1), (10, 9, 1)] {
        match draw(columns, rows, 2026, draws, &mut map) {
            Err(why) => println!("no {}", why.0),
            Ok((faults, drawn)) => {
                let blocks = drawn.mark(&mut marks, &mut rounds);
                println!("faults {faults}, blocks {blocks:?}, rounds {rounds}");
                show_boxes(&drawn, faults as usize);
                println!("{:?}", drawn.route(Network::First, source, destination, &mut out).map(String::from_utf8_lossy));
            }
        }
    }
}
