//! How many pieces a drawing falls into, and how far one command moves their number.

use plain::*;

const ORIGIN: [u8; 16] = [0; 16];

fn vertices(count: usize) -> Vec<u8> {
    [&[0x01][..], &ORIGIN].concat().repeat(count)
}

fn closed_edge() -> Vec<u8> {
    [&[0x03, 1][..], &ORIGIN].concat()
}

/// The drawing after commands that are all done.
fn after(scripts: &[&[u8]]) -> Drawing {
    let mut drawing = Drawing::empty();
    let outcomes = run(&mut drawing, &scripts.concat());
    assert!(outcomes.iter().all(|outcome| outcome.number == 0), "{outcomes:?}");
    drawing
}

/// The pieces of a drawing, as it stands, as a block and as a file.
#[track_caller]
fn counted(drawing: &Drawing) -> u32 {
    let (number, count) = pieces(drawing);
    assert_eq!(number, 0);
    assert_eq!(pieces_block(&Block::of(drawing)), (0, count));
    assert_eq!(pieces_file(&file_of(drawing)), (0, count));
    count
}

/// The pieces after one more command that is done.
#[track_caller]
fn then(drawing: &Drawing, bytes: &[u8]) -> u32 {
    let answer = command(drawing, bytes);
    assert_eq!(answer.number, 0);
    counted(&answer.drawing)
}

#[test]
fn cells_alone() {
    assert_eq!(counted(&Drawing::empty()), 0);
    assert_eq!(counted(&Drawing { next: 500, cells: vec![] }), 0);
    assert_eq!(counted(&after(&[&vertices(1)])), 1);
    assert_eq!(counted(&after(&[&closed_edge()])), 1);
    assert_eq!(counted(&after(&[&[4, 0]])), 1);
    assert_eq!(counted(&after(&[&[4, 0], &closed_edge(), &vertices(2), &[4, 0]])), 5);
    assert_eq!(counted(&after(&[&vertices(256)])), 256);
}

#[test]
fn boundaries_link() {
    // A loop; two vertices and an edge; a closed edge and a face that goes round it.
    assert_eq!(counted(&after(&[&vertices(1), &[2, 1, 1, 0]])), 1);
    assert_eq!(counted(&after(&[&vertices(2), &[2, 1, 2, 0]])), 1);
    assert_eq!(counted(&after(&[&closed_edge(), &[4, 1, 2, 3, 3]])), 1);
    // Two faces that share a border, and two that share nothing but are equal.
    assert_eq!(counted(&after(&[&vertices(1), &[2, 1, 1, 0], &[4, 1, 1, 4], &[4, 1, 1, 5]])), 1);
    assert_eq!(counted(&after(&[&vertices(2), &[4, 1, 0, 1], &[4, 1, 0, 2]])), 2);
    // A chain of edges whose ids fall along it: 5 from 4 to 3, 6 from 2 to 1, 7 from 3 to 2.
    let chain = after(&[&vertices(4), &[2, 4, 3, 0], &[2, 2, 1, 0]]);
    assert_eq!((counted(&chain), then(&chain, &[2, 3, 2, 0])), (2, 1));
}

#[test]
fn a_face_links_its_cycles() {
    // Two lone vertices; a lone vertex, a loop and a closed edge. Without the face they fall apart.
    let stones = after(&[&vertices(2), &[4, 2, 0, 1, 0, 2]]);
    assert_eq!((counted(&stones), then(&stones, &[6, 3])), (1, 2));
    let islands = after(&[&vertices(2), &[2, 2, 2, 0], &closed_edge(), &[4, 3, 0, 1, 1, 6, 2, 8, 8]]);
    assert_eq!((counted(&islands), then(&islands, &[6, 5])), (1, 3));
    // A vertex twice alone, and an edge there and back beside its end.
    let twice = after(&[&vertices(2), &[2, 1, 2, 0], &[4, 3, 0, 1, 0, 1, 2, 6, 7]]);
    assert_eq!((counted(&twice), then(&twice, &[6, 4])), (1, 1));
}

#[test]
fn a_vertex_is_one_more() {
    for drawing in [Drawing::empty(), after(&[&vertices(2), &[2, 1, 2, 0], &closed_edge(), &[4, 0]])] {
        assert_eq!(then(&drawing, &vertices(1)), counted(&drawing) + 1);
    }
}

#[test]
fn an_open_edge_is_one_less_or_none() {
    let islands = after(&[&vertices(3), &[2, 1, 2, 0]]);
    assert_eq!(counted(&islands), 2);
    // A loop, beside the edge, and between the islands.
    assert_eq!(then(&islands, &[2, 3, 3, 0]), 2);
    assert_eq!(then(&islands, &[2, 2, 1, 0]), 2);
    assert_eq!(then(&islands, &[2, 3, 1, 0]), 1);
    // Between stones of one face.
    let stones = after(&[&vertices(2), &[4, 2, 0, 1, 0, 2]]);
    assert_eq!(then(&stones, &[2, 1, 2, 0]), 1);
}

#[test]
fn a_face_without_cycles_is_one_less() {
    let drawing = after(&[&[4, 0], &vertices(1)]);
    assert_eq!((counted(&drawing), then(&drawing, &[6, 1])), (2, 1));
    assert_eq!(then(&after(&[&[4, 0]]), &[6, 1]), 0);
}

#[test]
fn a_face_with_k_cycles_is_up_to_k_less_one_more() {
    for k in 1..=9 {
        // All cycles at one vertex, and each at its own: the face is cell 10.
        let lone = |vertex: &dyn Fn(u8) -> u8| (0..k).flat_map(|i| [0, vertex(i)]).collect::<Vec<u8>>();
        let one = after(&[&vertices(9), &[4, k], &lone(&|_| 1)]);
        assert_eq!((counted(&one), then(&one, &[6, 10])), (9, 9));
        let all = after(&[&vertices(9), &[4, k], &lone(&|i| i + 1)]);
        assert_eq!(counted(&all), 10 - u32::from(k));
        assert_eq!(then(&all, &[6, 10]), counted(&all) + u32::from(k) - 1);
    }
}

#[test]
fn a_vertex_may_take_a_piece_or_leave_several() {
    // Nothing is claimed of this delete: alone, at the end of an edge, between two edges, between three.
    assert_eq!(then(&after(&[&vertices(1)]), &[6, 1]), 0);
    for ends in 1..=3 {
        let star: Vec<u8> = (0..ends).flat_map(|i| [2, 1, i + 2, 0]).collect();
        let drawing = after(&[&vertices(4), &star]);
        assert_eq!((counted(&drawing), then(&drawing, &[6, 1])), (4 - u32::from(ends), 3));
    }
}

#[test]
fn ids_do_not_matter() {
    let script = [&vertices(5)[..], &[6, 1], &[2, 5, 3, 0], &[4, 2, 0, 2, 2, 12, 13]].concat();
    let drawing = after(&[&script]);
    assert_eq!((counted(&drawing), then(&drawing, &[0x0F])), (2, 2));
}

#[test]
fn no_drawing_no_pieces() {
    let mut block = Block::of(&after(&[&vertices(3)]));
    block.kinds[1] = 4;
    assert_eq!(pieces_block(&block), (1, 0));
    block.count = usize::MAX;
    assert_eq!(pieces_block(&block), (1, 0));
    for no_file in [&[][..], &[0x01], &[0x00, 0x00], &[0x01, 0x00, 0x00], &[0x02, 0x01, 0x02, 0x03, 0x00]] {
        assert_eq!(pieces_file(no_file), (10, 0));
    }
}
