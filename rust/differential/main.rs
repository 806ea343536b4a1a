//! The proved library against rust/plain_mesh.rs, rust/plain_boxes.rs, rust/plain_legs.rs and rust/plain_draw.rs on random requests: answers,
//! every byte of an output or a record and beside it, and that maps, sends, hand-ins, letters and files are as they were. Prints counts; at the
//! first difference it prints the case and exits with status 1. Each operation has a file of its own.
//!   c/library && rustc -O rust/differential/main.rs -L target/staticlib -l static=pinduguil -o differential && ./differential
mod batch;
mod boxing;
mod channels;
mod drawing;
mod inputs;
mod judging;
mod legs;
mod lent;
mod marking;
mod moving;
mod picking;
#[path = "../plain_boxes.rs"]
mod plain_boxes;
#[path = "../plain_draw.rs"]
mod plain_draw;
#[path = "../plain_legs.rs"]
mod plain_legs;
#[path = "../plain_mesh.rs"]
mod plain_mesh;
mod random;
mod routing;
#[path = "../wrapper.rs"]
mod wrapper;
use inputs::{coordinate, network, place, Case};
use random::Random;

#[derive(Default)]
struct Tests {
    compared: lent::Compared,
    marking: marking::Marking,
    boxing: boxing::Boxing,
    routing: routing::Routing,
    picking: picking::Picking,
    batch: batch::Batch,
    judging: judging::Judging,
    moving: moving::Moving,
    legs: legs::Legs,
    drawing: drawing::Drawing,
    channels: channels::Channels,
}

impl Tests {
    /// Each operation on a map, in so many turns.
    fn check(&mut self, rng: &mut Random, case: &Case, turns: usize) {
        let compared = &mut self.compared;
        self.marking.check(rng, case, compared);
        self.boxing.check(rng, case, compared);
        self.batch.check(network(rng), rng, case, 12, compared);
        for _ in 0..turns {
            let (s, d) = (place(rng, case), place(rng, case));
            self.routing.check(network(rng), rng, case, s, d, compared);
            self.picking.check(rng, case, s, d, compared);
            self.judging.check(network(rng), rng, case, s, d, compared);
            self.moving.check(network(rng), rng, case, s, d, compared);
            if rng.one_in(12) {
                self.moving.check_list(network(rng), case, s, d, compared);
            }
            let d = if rng.one_in(3) { s } else { (s.0, d.1) };
            self.routing.check(network(rng), rng, case, s, d, compared);
        }
    }

    /// Routes from the west edge to the east, on the second network from one column on: there none is refused at the edge.
    fn check_long(&mut self, rng: &mut Random, case: &Case) {
        let (s, d) = (coordinate(rng, 64), coordinate(rng, 64));
        for network in 1..=2 {
            let source = (s, network - 1);
            self.routing.check(network, rng, case, source, (d, 62), &mut self.compared);
            self.routing.check(network, rng, case, source, (s, 63), &mut self.compared);
        }
        self.picking.check(rng, case, (s, 1), (d, 62), &mut self.compared);
    }

    /// Prints counts, and says whether every answer, every null pointer, the most boxes and the longest tour was met.
    fn report(&self) -> bool {
        let lent::Compared { inputs, outputs, .. } = self.compared;
        println!("{outputs} bytes of outputs and {inputs} of inputs compared");
        let met = [
            self.marking.report(), self.boxing.report(), self.routing.report(), self.picking.report(), self.batch.report(),
            self.judging.report(), self.moving.report(), self.legs.report(), self.drawing.report(), self.channels.report(),
        ];
        met.iter().all(|&met| met)
    }
}

fn main() {
    let mut rng = Random(20_031_101);
    let mut tests = Tests::default();
    for columns in 1..=64 {
        for rows in 1..=64 {
            let case = Case::random(&mut rng, columns, rows);
            tests.check(&mut rng, &case, 1);
        }
    }
    let sizes = tests.compared.requests;
    for _ in 0..300 {
        let case = Case::random(&mut rng, 64, 64);
        tests.check(&mut rng, &case, 4);
    }
    for _ in 0..100 {
        let case = Case::bars(&mut rng);
        tests.check_long(&mut rng, &case);
    }
    for i in 0..20 {
        let case = Case::random(&mut rng, 64, 64);
        tests.batch.check(1 + i % 2, &mut rng, &case, 8000, &mut tests.compared);
    }
    let largest = tests.compared.requests - sizes;
    // small ones, where blocks, rings and edges are close together
    while tests.compared.requests < 4_000_000 {
        let (columns, rows) = (1 + rng.below(15), 1 + rng.below(11));
        let case = Case::random(&mut rng, columns, rows);
        tests.check(&mut rng, &case, 8);
    }
    let meshes = tests.compared.requests;
    tests.boxing.check_maps(&mut rng, &mut tests.compared);
    let boxed = tests.compared.requests;
    tests.legs.check(&mut rng, &mut tests.compared);
    let before = tests.compared.requests;
    tests.drawing.check(&mut rng, &mut tests.compared);
    let drawn = tests.compared.requests;
    tests.channels.check(&mut rng, &mut tests.judging, &mut tests.compared);
    let all = tests.compared.requests;
    let (small, boxes, legs, draws, tours) = (meshes - largest - sizes, boxed - meshes, before - boxed, drawn - before, all - drawn);
    println!("{all} requests, no difference: {sizes} over every size, {largest} on 64 x 64, {small} on small meshes");
    println!("    and {boxes} of boxes on maps of their own, {legs} of legs, {draws} of draws, {tours} of tours");
    if !tests.report() {
        println!("an answer, a null pointer, the most boxes or the longest tour was never met");
        std::process::exit(1);
    }
}
