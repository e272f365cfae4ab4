//! Question 1: damaged drawings are refused by every call, and given back as they were.

use plain::*;

const ORIGIN: Position = Position { x: 0.0, y: 0.0 };

fn drawing(next: u32, shapes: Vec<(u32, Shape)>) -> Drawing {
    Drawing { next, cells: shapes.into_iter().map(|(id, shape)| Cell { id, shape }).collect() }
}

fn path(steps: &[(u32, bool)]) -> Cycle {
    Cycle::Path(steps.iter().map(|&(edge, backward)| Halfedge { edge, backward }).collect())
}

/// Vertices 1 and 2, edges 3 from 1 to 2 and 4 from 2 to 1, closed 5, and a face 6 with the given cycles.
fn with_face(cycles: Vec<Cycle>) -> Drawing {
    let open = |start, end| Shape::Open { start, end, bends: vec![ORIGIN] };
    let closed = Shape::Closed { bends: vec![ORIGIN] };
    let (one, two) = (Shape::Vertex(ORIGIN), Shape::Vertex(ORIGIN));
    drawing(7, vec![(1, one), (2, two), (3, open(1, 2)), (4, open(2, 1)), (5, closed), (6, Shape::Face { cycles })])
}

fn refused(drawing: Drawing) {
    let before = format!("{drawing:?}");
    assert_eq!(sound(&drawing), None, "{before}");
    for bytes in [&[6, 1, 6, 1][..], &[0x0F]] {
        let answer = command(&drawing, bytes);
        assert_eq!((answer.number, answer.first, answer.new, answer.removed), (1, 0, 0, 0));
        assert_eq!(answer.drawing, drawing);
        assert_eq!(rest(&drawing, bytes), bytes);
    }
    assert_eq!(star(&drawing, 1, &mut [0; 4]), (1, 0));
    assert_eq!(euler(&drawing), (1, 0));
    assert_eq!(pieces(&drawing), (1, 0));
    assert_eq!(pieces_block(&Block::of(&drawing)), (1, 0));
    assert_eq!(write(&drawing, &mut [0; 4]), (1, 0));
}

#[test]
fn good_faces_are_sound() {
    for cycles in [
        vec![],
        vec![Cycle::Lone(1), Cycle::Lone(1)],
        vec![path(&[(3, false), (4, false)]), path(&[(4, true), (3, true)])],
        vec![path(&[(3, false), (3, true)])],
        vec![path(&[(5, true), (5, true), (5, true)])],
    ] {
        assert!(sound(&with_face(cycles)).is_some());
    }
}

#[test]
fn bad_cycles() {
    for cycle in [
        path(&[]),
        path(&[(3, false)]),
        path(&[(3, false), (4, true)]),
        path(&[(3, false), (5, false)]),
        path(&[(5, false), (3, false), (4, false)]),
        path(&[(5, false), (5, true)]),
        path(&[(6, false)]),
        path(&[(1, false)]),
        path(&[(9, false)]),
        Cycle::Lone(3),
        Cycle::Lone(0),
        Cycle::Lone(7),
    ] {
        refused(with_face(vec![cycle]));
    }
}

#[test]
fn bad_ids() {
    let vertex = || Shape::Vertex(ORIGIN);
    refused(drawing(0, vec![]));
    refused(drawing(65_537, vec![]));
    refused(drawing(2, vec![(0, vertex())]));
    refused(drawing(2, vec![(2, vertex())]));
    refused(drawing(9, vec![(2, vertex()), (2, vertex())]));
    refused(drawing(9, vec![(3, vertex()), (2, vertex())]));
    assert!(sound(&drawing(65_536, vec![(65_535, vertex())])).is_some());
}

#[test]
fn bad_edges_and_coordinates() {
    let far = Position { x: 0.0, y: f64::from_bits(BOUND.to_bits() + 1) };
    let nan = Position { x: f64::NAN, y: 0.0 };
    refused(drawing(2, vec![(1, Shape::Closed { bends: vec![] })]));
    for bad in [far, nan] {
        refused(drawing(2, vec![(1, Shape::Vertex(bad))]));
        refused(drawing(2, vec![(1, Shape::Closed { bends: vec![ORIGIN, bad] })]));
    }
    refused(drawing(2, vec![(1, Shape::Open { start: 1, end: 1, bends: vec![] })]));
    refused(drawing(3, vec![(1, Shape::Vertex(ORIGIN)), (2, Shape::Open { start: 1, end: 2, bends: vec![] })]));
}

#[test]
fn totals_above_the_ceilings() {
    refused(drawing(258, (1..=257).map(|id| (id, Shape::Vertex(ORIGIN))).collect()));
    refused(drawing(2, vec![(1, Shape::Closed { bends: vec![ORIGIN; 2_049] })]));
    refused(with_face(vec![Cycle::Lone(1); 513]));
    refused(with_face(vec![path(&[(5, false); 2_049])]));
    assert!(sound(&with_face(vec![path(&[(5, false); 2_048])])).is_some());
    assert!(sound(&with_face(vec![Cycle::Lone(1); 512])).is_some());
}

#[test]
fn a_short_buffer_gets_nine_and_keeps_what_it_held() {
    let drawing = with_face(vec![path(&[(3, false), (4, false)])]);
    let mut short = [7; 2];
    assert_eq!(star(&drawing, 1, &mut short), (9, 3));
    assert_eq!(short, [7; 2]);
    let mut long = [7; 5];
    assert_eq!(star(&drawing, 1, &mut long), (0, 3));
    assert_eq!(long, [3, 4, 6, 7, 7]);
    assert_eq!(star(&drawing, 9, &mut long), (4, 0));
    let mut bytes = [7; 9];
    assert_eq!(write(&drawing, &mut bytes), (9, file_of(&drawing).len()));
    assert_eq!(bytes, [7; 9]);
    assert_eq!(read(&file_of(&drawing)), Ok(drawing));
}
