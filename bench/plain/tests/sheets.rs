//! The sheets of document 01, renumbering, and rules that are easily read wrong.

use plain::*;

const ORIGIN: [u8; 16] = [0; 16];

/// A script from pieces of bytes.
fn script(pieces: &[&[u8]]) -> Vec<u8> {
    pieces.concat()
}

fn vertex() -> Vec<u8> {
    [&[0x01][..], &ORIGIN].concat()
}

fn after(pieces: &[&[u8]]) -> (Drawing, Vec<u32>) {
    let mut drawing = Drawing::empty();
    let outcomes = run(&mut drawing, &script(pieces));
    (drawing, outcomes.iter().map(|outcome| outcome.number).collect())
}

fn cycles(drawing: &Drawing, face: u32) -> Vec<Cycle> {
    match drawing.shape(face) {
        Some(Shape::Face { cycles }) => cycles.clone(),
        other => panic!("{face} is {other:?}"),
    }
}

fn path(steps: &[(u32, bool)]) -> Cycle {
    Cycle::Path(steps.iter().map(|&(edge, backward)| Halfedge { edge, backward }).collect())
}

#[test]
fn numbers_are_spelled_shortest() {
    let spelled = |value| {
        let mut out = Vec::new();
        put_number(&mut out, value);
        out
    };
    assert_eq!(spelled(127), [0x7F]);
    assert_eq!(spelled(128), [0x80, 0x01]);
    assert_eq!(spelled(2_097_151), [0xFF, 0xFF, 0x7F]);
    for bad in [&[0x06, 0x80, 0x00][..], &[0x06, 0xFF, 0xFF, 0xFF, 0x01], &[0x06, 0x80], &[0x06], &[0x10], &[]] {
        assert_eq!(command(&Drawing::empty(), bad).number, 2);
        assert_eq!(rest(&Drawing::empty(), bad), bad);
    }
}

#[test]
fn files_of_small_drawings() {
    assert_eq!(file_of(&Drawing::empty()), [0x01, 0x00]);
    let (drawing, _) = after(&[&vertex()]);
    assert_eq!(file_of(&drawing), [&[0x02, 0x01, 0x01, 0x00][..], &ORIGIN].concat());
}

#[test]
fn the_worked_example() {
    let mut drawing = Drawing::empty();
    let bytes = script(&[&vertex(), &[2, 1, 1, 0], &[4, 1, 1, 4], &[0x0A, 2, 0], &[0x0E, 4]]);
    let lines: Vec<_> = run(&mut drawing, &bytes).iter().map(|o| [o.number, o.first, o.new, o.removed]).collect();
    assert_eq!(lines, [[0, 1, 1, 0], [0, 2, 1, 0], [0, 3, 1, 0], [0, 4, 3, 1], [0, 7, 1, 3]]);
    assert_eq!((euler(&drawing), drawing.cells.len()), ((0, 1), 3));
}

#[test]
fn uncut_refuses_a_turn_and_keeps_a_walk() {
    // Vertices 1, 2, 3; a = 4 from 1 to 2, b = 5 from 2 to 3.
    let base = script(&[&vertex(), &vertex(), &vertex(), &[2, 1, 2, 0], &[2, 2, 3, 0]]);
    let (_, turning) = after(&[&base, &[4, 1, 2, 8, 9], &[0x0E, 2]]);
    assert_eq!(turning.last(), Some(&6));
    let (drawing, walking) = after(&[&base, &[4, 1, 4, 8, 10, 11, 9], &[0x0E, 2]]);
    assert_eq!(walking.last(), Some(&0));
    assert_eq!(cycles(&drawing, 6), [path(&[(7, false), (7, true)])]);
}

#[test]
fn lone_vertices_cut_along_an_edge() {
    let (drawing, _) = after(&[&vertex(), &[4, 1, 0, 1], &[0x0C, 2, 0, 0, 0, 0, 0, 0]]);
    assert_eq!(cycles(&drawing, 2), [path(&[(3, true)])]);
    assert_eq!(cycles(&drawing, 4), [path(&[(3, false)])]);
    let (drawing, _) = after(&[&vertex(), &vertex(), &[4, 2, 0, 1, 0, 2], &[0x0C, 3, 0, 0, 1, 0, 0, 0]]);
    assert_eq!(cycles(&drawing, 3), [path(&[(4, false), (4, true)])]);
}

#[test]
fn triangles_that_meet_at_a_vertex_come_apart() {
    let five: Vec<u8> = (0..5).flat_map(|_| vertex()).collect();
    let edges = [[2, 1, 2, 0], [2, 2, 3, 0], [2, 3, 1, 0], [2, 1, 4, 0], [2, 4, 5, 0], [2, 5, 1, 0]].concat();
    let faces = [[4, 1, 3, 12, 14, 16], [4, 1, 3, 18, 20, 22]].concat();
    let mut drawing = Drawing::empty();
    run(&mut drawing, &script(&[&five, &edges, &faces]));
    let unglued = command(&drawing, &[9, 1]);
    assert_eq!((unglued.number, unglued.first, unglued.new, unglued.removed), (0, 14, 1, 0));
}

#[test]
fn the_ceiling_of_cells() {
    let full: Vec<u8> = (0..256).flat_map(|_| vertex()).collect();
    let (_, numbers) = after(&[&full, &vertex(), &[6, 7], &vertex()]);
    assert!(numbers[..256].iter().all(|&number| number == 0));
    assert_eq!(numbers[256..], [8, 0, 0]);
}

#[test]
fn the_bound_of_a_coordinate() {
    let at = |x: f64| [&[0x01][..], &x.to_le_bytes(), &[0; 8]].concat();
    let above = f64::from_bits(BOUND.to_bits() + 1);
    let number = |x| command(&Drawing::empty(), &at(x)).number;
    assert_eq!([number(BOUND), number(above), number(-BOUND), number(-above)], [0, 3, 0, 3]);
    assert_eq!([number(f64::NAN), number(f64::INFINITY), number(-0.0)], [3, 3, 0]);
}

#[test]
fn a_loop_has_two_ends() {
    // A loop that no cycle passes: each end is a group of its own.
    let (drawing, numbers) = after(&[&vertex(), &[2, 1, 1, 0], &[9, 1]]);
    assert_eq!(numbers, [0, 0, 0]);
    assert_eq!(drawing.shape(2), Some(&Shape::Open { start: 1, end: 3, bends: vec![] }));
    // A cycle that goes round it joins them, so there is one group.
    assert_eq!(after(&[&vertex(), &[2, 1, 1, 0], &[4, 1, 1, 4], &[9, 1]]).1, [0, 0, 0, 6]);
}

#[test]
fn a_closed_edge_comes_apart_by_cycles() {
    let (drawing, _) = after(&[&[3, 1], &ORIGIN, &[4, 2, 2, 2, 2, 2, 3, 3], &[9, 1]]);
    assert_eq!(cycles(&drawing, 2), [path(&[(1, false), (1, false)]), path(&[(3, true), (3, true)])]);
    assert_eq!(after(&[&[3, 1], &ORIGIN, &[4, 1, 3, 2, 2, 2], &[9, 1]]).1, [0, 0, 6]);
}

#[test]
fn two_comes_before_three_and_three_before_four() {
    let nan = f64::NAN.to_le_bytes();
    let bytes = script(&[&[2, 9, 9, 1], &nan, &nan]);
    assert_eq!(command(&Drawing::empty(), &bytes).number, 3);
    assert_eq!(command(&Drawing::empty(), &bytes[..bytes.len() - 1]).number, 2);
}

#[test]
fn lists_above_the_ceilings_get_eight() {
    let bends = script(&[&[3, 0x81, 0x10], &[0; 16 * 2_049]]);
    assert_eq!(command(&Drawing::empty(), &bends).number, 8);
    let (drawing, _) = after(&[&vertex()]);
    let face = [&[4, 0x81, 0x04][..], &[0, 1].repeat(513)].concat();
    assert_eq!(command(&drawing, &face).number, 8);
    assert_eq!(rest(&drawing, &face), []);
}

/// The first new id of a command that is done.
fn first(drawing: &Drawing, bytes: &[u8]) -> u32 {
    let answer = command(drawing, bytes);
    assert_eq!(answer.number, 0);
    answer.first
}

#[test]
fn renumbering_renames_ends_steps_and_lone_vertices() {
    // Vertices 1, 2, 4 (3 is deleted), edges 5 from 4 to 2 and 6, a loop at 4, closed 7, and face 9 (8 is deleted): lone vertex 4
    // twice, 5 there and back, the loop backward, 7 twice round.
    let vertices: Vec<u8> = (0..4).flat_map(|_| vertex()).collect();
    let edges = script(&[&[6, 3], &[2, 4, 2, 0], &[2, 4, 4, 0], &[3, 1], &ORIGIN, &[4, 0], &[6, 8]]);
    let face = [4, 5, 0, 4, 0, 4, 2, 10, 11, 1, 13, 2, 14, 14];
    let (before, numbers) = after(&[&vertices, &edges, &face]);
    assert!(numbers.iter().all(|&number| number == 0));
    assert_eq!((before.next, before.cells.len()), (10, 7));
    let answer = command(&before, &[0x0F, 0x0F]);
    assert_eq!((answer.number, answer.first, answer.new, answer.removed), (0, 0, 0, 0));
    assert_eq!(rest(&before, &[0x0F, 0x0F]), [0x0F]);
    let drawing = answer.drawing;
    let ids: Vec<u32> = drawing.cells.iter().map(|cell| cell.id).collect();
    assert_eq!((drawing.next, ids), (8, (1..=7).collect()));
    assert_eq!(drawing.shape(4), Some(&Shape::Open { start: 3, end: 2, bends: vec![] }));
    assert_eq!(drawing.shape(5), Some(&Shape::Open { start: 3, end: 3, bends: vec![] }));
    let there = path(&[(4, false), (4, true)]);
    let ring = path(&[(6, false), (6, false)]);
    assert_eq!(cycles(&drawing, 7), [Cycle::Lone(3), Cycle::Lone(3), there, path(&[(5, true)]), ring]);
    assert_eq!(euler(&drawing), euler(&before));
    let mut buffer = [0; 4];
    assert_eq!((star(&drawing, 3, &mut buffer), buffer), ((0, 3), [4, 5, 7, 0]));
    // The second time nothing changes; the next new id is 8.
    assert_eq!(command(&drawing, &[0x0F]).drawing, drawing);
    assert_eq!(first(&drawing, &vertex()), 8);
}

#[test]
fn renumbering_an_empty_drawing() {
    for next in [1, 500, END_OF_IDS] {
        let answer = command(&Drawing { next, cells: vec![] }, &[0x0F]);
        assert_eq!((answer.number, answer.first, answer.new, answer.removed), (0, 0, 0, 0));
        assert_eq!(answer.drawing, Drawing::empty());
    }
}

#[test]
fn renumbering_gives_ids_again() {
    let cells = (65_280..65_536).map(|id| Cell { id, shape: Shape::Vertex(Position { x: 0.0, y: 0.0 }) }).collect();
    let mut drawing = Drawing { next: END_OF_IDS, cells };
    assert_eq!(command(&drawing, &vertex()).number, 7);
    assert_eq!(edit(&mut drawing, &[0x0F]).number, 0);
    assert_eq!((drawing.next, drawing.cells[0].id, drawing.cells[255].id), (257, 1, 256));
    assert_eq!(command(&drawing, &vertex()).number, 8);
    // Old ids mean nothing now; 7 is another cell.
    assert_eq!(command(&drawing, &[6, 0xFF, 0xFF, 0x03]).number, 4);
    assert_eq!(edit(&mut drawing, &[6, 7]).removed, 1);
    assert_eq!(first(&drawing, &vertex()), 257);
    // The next id falls even where the ids are 1 to n.
    let (drawing, _) = after(&[&vertex(), &vertex(), &[6, 2], &[0x0F]]);
    assert_eq!((drawing.next, drawing.cells.len()), (2, 1));
}
