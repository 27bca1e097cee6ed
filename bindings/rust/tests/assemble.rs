//! Graphs of another writer.

use mosaic::{assemble, CutList, Graph, Map, Mode, NotAssembled, RegionId};

const OUTSIDE: u32 = RegionId::OUTSIDE.0;
const NONE: u32 = u32::MAX;

const PAIR: Map<'static> = Map {
    width: 2,
    height: 1,
    paints: 2,
    labels: &[0, 1],
};

/// The nodes the other way round, the line between the two pixels first and northward, the way round the right one last and back.
const NODES: [[u32; 6]; 2] = [[1, 1, 0, 4, NONE, 3], [1, 0, NONE, 5, 1, 2]];
const SEGMENTS: [[u32; 8]; 3] = [
    [0, 2, 0, 1, 0, 1, 0, 0],
    [2, 4, 1, 0, 0, OUTSIDE, 3, 1],
    [6, 4, 0, 1, 1, OUTSIDE, 1, 3],
];
const POINTS: [[u32; 2]; 10] = [
    [1, 1],
    [1, 0],
    [1, 0],
    [0, 0],
    [0, 1],
    [1, 1],
    [1, 1],
    [2, 1],
    [2, 0],
    [1, 0],
];

fn pair(nodes: &[[u32; 6]]) -> Result<CutList, NotAssembled> {
    let graph = Graph {
        nodes,
        segments: &SEGMENTS,
        points: &POINTS,
    };
    assemble(Mode::Plain, PAIR, graph)
}

/// Each face as its region and the corners of its contours.
fn faces(list: &CutList) -> Vec<(u32, Vec<Vec<(u32, u32)>>)> {
    list.faces()
        .map(|face| {
            let corners = |c: mosaic::Contour<'_>| c.corners().map(|p| (p.x, p.y)).collect();
            (face.region().0, face.contours().map(corners).collect())
        })
        .collect()
}

#[test]
fn renumbered_and_reversed() {
    let list = pair(&NODES).expect("a graph of the map");
    assert_eq!(list.counts(), [2, 3, 10, 4, 2, 2, 7]);
    let left = vec![(1, 0), (0, 0), (0, 1), (1, 1)];
    let right = vec![(1, 1), (2, 1), (2, 0), (1, 0)];
    assert_eq!(faces(&list), [(0, vec![left]), (1, vec![right])]);
}

#[test]
fn an_out_entry_missing() {
    let mut nodes = NODES;
    nodes[0][5] = NONE;
    assert_eq!(pair(&nodes), Err(NotAssembled::StrangeGraph));
}

fn ring(last: u32) -> Result<CutList, NotAssembled> {
    let map = Map {
        width: 1,
        height: 1,
        paints: 1,
        labels: &[0],
    };
    let graph = Graph {
        nodes: &[],
        segments: &[[0, 5, NONE, NONE, 0, OUTSIDE, 0, last]],
        points: &[[1, 1], [1, 0], [0, 0], [0, 1], [1, 1]],
    };
    assemble(Mode::Plain, map, graph)
}

#[test]
fn a_ring_from_another_corner() {
    let list = ring(0).expect("a graph of the map");
    let around = vec![(1, 0), (0, 0), (0, 1), (1, 1)];
    assert_eq!(faces(&list), [(0, vec![around])]);
    assert_eq!(ring(1), Err(NotAssembled::StrangeGraph));
}

#[test]
fn no_graph_in_either_mode() {
    let empty = Graph {
        nodes: &[],
        segments: &[],
        points: &[],
    };
    let waste = Map { paints: 0, ..PAIR };
    let list = assemble(Mode::NoWaste, waste, empty).expect("no cut goes through waste");
    assert_eq!(list.counts(), [0; 7]);
    assert_eq!(
        assemble(Mode::Plain, waste, empty),
        Err(NotAssembled::StrangeGraph)
    );
    let long = Map {
        width: 16_385,
        height: 0,
        ..PAIR
    };
    assert_eq!(
        assemble(Mode::Plain, long, empty),
        Err(NotAssembled::SideTooLong)
    );
    let short = Map {
        labels: &[0],
        ..PAIR
    };
    assert_eq!(
        assemble(Mode::Plain, short, empty),
        Err(NotAssembled::WrongLabelCount)
    );
    assert_eq!(NotAssembled::StrangeGraph.number(), 15);
}
