//! The soundness test as a call of its own: it ends at the first fault and counts the cells visited. Each drawing is handed
//! over as it stands and as a block.

use plain::*;

const ORIGIN: Position = Position { x: 0.0, y: 0.0 };
const NOWHERE: Position = Position { x: 0.0, y: f64::NAN };
const VERTEX: Shape = Shape::Vertex(ORIGIN);

fn drawing(next: u32, shapes: Vec<(u32, Shape)>) -> Drawing {
    Drawing { next, cells: shapes.into_iter().map(|(id, shape)| Cell { id, shape }).collect() }
}

fn open(start: u32, end: u32) -> Shape {
    Shape::Open { start, end, bends: vec![] }
}

fn closed(bends: usize) -> Shape {
    Shape::Closed { bends: vec![ORIGIN; bends] }
}

fn face(paths: &[&[u32]]) -> Shape {
    let path = |path: &&[u32]| path.iter().map(|step| Halfedge { edge: step / 2, backward: step % 2 == 1 }).collect();
    Shape::Face { cycles: paths.iter().map(|steps| Cycle::Path(path(steps))).collect() }
}

fn lone(vertices: &[u32]) -> Shape {
    Shape::Face { cycles: vertices.iter().map(|&vertex| Cycle::Lone(vertex)).collect() }
}

fn vertices(count: u32) -> Vec<(u32, Shape)> {
    (1..=count).map(|id| (id, VERTEX)).collect()
}

#[track_caller]
fn yes(drawing: Drawing) {
    let all = Verdict { sound: true, visited: drawing.cells.len() as u32 };
    assert_eq!((check(&drawing), check_block(&Block::of(&drawing))), (all, all));
    assert!(sound(&drawing).is_some());
}

#[track_caller]
fn no(visited: u32, drawing: Drawing) {
    let so_far = Verdict { sound: false, visited };
    assert_eq!((check(&drawing), check_block(&Block::of(&drawing))), (so_far, so_far));
    assert!(sound(&drawing).is_none());
}

#[test]
fn a_sound_drawing_is_visited_whole() {
    yes(drawing(1, vec![]));
    yes(drawing(65_536, vec![]));
    yes(drawing(257, vertices(256)));
    yes(drawing(9, vec![(2, VERTEX), (4, open(2, 2)), (5, closed(1)), (8, face(&[&[8, 9], &[11, 11]]))]));
}

#[test]
fn no_cell_is_visited_where_next_id_or_count_is_out_of_bounds() {
    no(0, drawing(0, vec![]));
    no(0, drawing(65_537, vec![]));
    no(0, drawing(0, vec![(0, VERTEX)]));
    no(0, drawing(65_537, vertices(3)));
    no(0, drawing(258, vertices(257)));
}

#[test]
fn the_first_cell_at_fault_is_the_last_visited() {
    no(1, drawing(4, vec![(1, Shape::Vertex(NOWHERE)), (2, VERTEX), (3, open(2, 9))]));
    no(3, drawing(4, vec![(1, VERTEX), (2, VERTEX), (3, open(2, 9))]));
    no(2, drawing(4, vec![(1, VERTEX), (2, open(1, 9)), (3, Shape::Vertex(NOWHERE))]));
    no(256, drawing(257, [vertices(255), vec![(256, closed(0))]].concat()));
    no(1, drawing(257, [vec![(1, closed(0))], vertices(256).split_off(1)].concat()));
}

#[test]
fn ids_are_rules_about_their_cell() {
    no(1, drawing(5, vec![(0, VERTEX), (1, VERTEX)]));
    // The later cell falls.
    no(2, drawing(5, vec![(3, VERTEX), (2, VERTEX), (4, VERTEX)]));
    no(3, drawing(5, vec![(2, VERTEX), (3, VERTEX), (3, VERTEX)]));
    // The next id is in bounds, the ids are not below it.
    no(2, drawing(2, vertices(3)));
    no(1, drawing(1, vertices(3)));
    no(3, drawing(3, vertices(3)));
}

#[test]
fn a_named_id_means_the_first_cell_that_has_it() {
    // A vertex and an edge have id 5: the edges before them end at the vertex, or do not where the edge is first.
    let edge = Shape::Open { start: 5, end: 5, bends: vec![] };
    no(3, drawing(9, vec![(4, edge.clone()), (5, VERTEX), (5, closed(1))]));
    no(1, drawing(9, vec![(4, edge.clone()), (5, closed(1)), (5, VERTEX)]));
    // The step is of the edge that is first, which ends elsewhere than the other one.
    let cells =
        |first: Shape, second: Shape| vec![(1, VERTEX), (2, VERTEX), (3, face(&[&[8]])), (4, first), (4, second)];
    no(5, drawing(9, cells(open(1, 1), open(1, 2))));
    no(3, drawing(9, cells(open(1, 2), open(1, 1))));
    // So it is with ids that fall.
    no(3, drawing(9, vec![(5, VERTEX), (6, open(5, 5)), (5, face(&[]))]));
}

#[test]
fn cells_looked_up_are_not_at_fault_before_their_turn() {
    // The face is right, its edge has a dead end.
    no(2, drawing(9, vec![(1, face(&[&[4]])), (2, open(7, 7)), (3, VERTEX)]));
    // The face is right, its closed edge has no bend.
    no(2, drawing(9, vec![(1, face(&[&[4, 4]])), (2, closed(0))]));
    // The lone vertex is nowhere, and comes last.
    no(3, drawing(9, vec![(1, lone(&[3, 3])), (2, VERTEX), (3, Shape::Vertex(NOWHERE))]));
}

#[test]
fn ceilings_are_on_the_totals_so_far() {
    yes(drawing(9, vec![(1, closed(1_000)), (2, closed(1_048)), (3, VERTEX)]));
    no(3, drawing(9, vec![(1, closed(1_000)), (2, closed(1_048)), (3, closed(1)), (4, VERTEX)]));
    no(2, drawing(9, vec![(1, closed(1_000)), (2, closed(1_049)), (3, Shape::Vertex(NOWHERE))]));
    yes(drawing(9, vec![(1, VERTEX), (2, lone(&[1; 500])), (3, lone(&[1; 12])), (4, lone(&[]))]));
    no(3, drawing(9, vec![(1, VERTEX), (2, lone(&[1; 500])), (3, lone(&[1; 13])), (4, lone(&[]))]));
    yes(drawing(9, vec![(1, closed(1)), (2, face(&[&[2; 2_000]])), (3, face(&[&[2; 48]])), (4, VERTEX)]));
    no(3, drawing(9, vec![(1, closed(1)), (2, face(&[&[2; 2_000]])), (3, face(&[&[2; 49]])), (4, VERTEX)]));
    // A lone vertex counts as one.
    let lone_too = |steps: usize| vec![(1, closed(1)), (2, VERTEX), (3, face(&[&vec![2; steps]])), (4, lone(&[2]))];
    yes(drawing(9, lone_too(2_047)));
    no(4, drawing(9, lone_too(2_048)));
}

/// The block of vertices 1 and 2, edges 3 from 1 to 2 and 4 from 2 to 1, closed edge 5, and face 6: 3 and 4 round, and 5 twice.
fn block() -> Box<Block> {
    let cells = vec![(1, VERTEX), (2, VERTEX), (3, open(1, 2)), (4, open(2, 1)), (5, closed(2))];
    Block::of(&drawing(7, [cells, vec![(6, face(&[&[6, 8], &[10, 10]]))]].concat()))
}

#[track_caller]
fn damaged(visited: u32, damage: impl Fn(&mut Block)) {
    let mut block = block();
    damage(&mut block);
    assert_eq!(check_block(&block), Verdict { sound: false, visited });
}

#[test]
fn blocks_have_rules_of_their_own() {
    assert_eq!(check_block(&block()), Verdict { sound: true, visited: 6 });
    damaged(2, |block| block.kinds[1] = 4);
    damaged(1, |block| block.kinds[0] = u32::MAX);
    // A number that the kind does not use.
    damaged(1, |block| block.starts[0] = 1);
    damaged(5, |block| block.ends[4] = 1);
    damaged(6, |block| block.bends[5] = 1);
    damaged(3, |block| block.counts[2] = 1);
    // Counts that run past the arrays.
    damaged(3, |block| block.bends[2] = u32::MAX);
    damaged(5, |block| block.bends[4] = 2_049);
    damaged(6, |block| block.counts[5] = u32::MAX);
    damaged(6, |block| block.cycles[1] = u32::MAX);
    damaged(0, |block| block.count = 257);
    damaged(0, |block| block.count = usize::MAX);
    // Places behind those in use are not looked at.
    let mut dirty = block();
    (dirty.ids[6], dirty.kinds[6], dirty.steps[4], dirty.bx[2]) = (1, 9, u32::MAX, f64::NAN);
    assert_eq!(check_block(&dirty), Verdict { sound: true, visited: 6 });
}

#[test]
fn blocks_hold_drawings_as_they_stand() {
    let sound =
        drawing(9, vec![(2, VERTEX), (4, open(2, 2)), (5, closed(3)), (8, face(&[&[8, 9], &[11]])), (3, lone(&[2]))]);
    assert_eq!(Block::of(&sound).drawing(), Some(sound));
    assert_eq!(Block::of(&drawing(9, vec![(1, closed(2_049))])).drawing(), None);
    assert_eq!(Block::of(&drawing(9, vec![(1, lone(&[2; 513]))])).drawing(), None);
    assert_eq!(Block::of(&drawing(9, vec![(1, face(&[&[2; 2_049]]))])).drawing(), None);
    assert_eq!(Block::of(&drawing(300, vertices(257))).drawing(), None);
}

#[test]
fn bytes_in_the_form_of_a_file() {
    let told = |bytes: &[u8]| check_file(bytes).map(|verdict| (verdict.sound, verdict.visited));
    assert_eq!(told(&[0x01, 0x00]), Ok((true, 0)));
    assert_eq!(told(&[0x00, 0x00]), Ok((false, 0)));
    assert_eq!(told(&[0x05, 0x02, 0x01, 0x03, 0x00, 0x02, 0x02, 0x00]), Ok((false, 2)));
    for no_file in [&[][..], &[0x01], &[0x01, 0x00, 0x00], &[0x81, 0x00, 0x00], &[0x05, 0x01, 0x01, 0x04]] {
        assert_eq!(told(no_file), Err(Refusal::File), "{no_file:?}");
    }
    let over =
        [drawing(300, vertices(257)), drawing(2, vec![(1, closed(2_049))]), drawing(2, vec![(1, lone(&[2; 513]))])];
    for drawing in over {
        assert_eq!(told(&file_of(&drawing)), Err(Refusal::File));
        assert_eq!(cells_of(&file_of(&drawing)), Some(drawing));
    }
}
