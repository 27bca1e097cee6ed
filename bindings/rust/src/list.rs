//! The cut list and what is read from it.

use crate::ffi::Answer;

/// The "none" word of the records.
const NONE: u32 = u32::MAX;

/// The number of a node.
#[derive(Clone, Copy, Debug, PartialEq, Eq, PartialOrd, Ord, Hash)]
pub struct NodeId(pub u32);

/// The number of a segment.
#[derive(Clone, Copy, Debug, PartialEq, Eq, PartialOrd, Ord, Hash)]
pub struct SegmentId(pub u32);

/// A label: the region that a pixel belongs to.
#[derive(Clone, Copy, Debug, PartialEq, Eq, PartialOrd, Ord, Hash)]
pub struct RegionId(pub u32);

impl RegionId {
    /// The label of a pixel of no piece, and of every pixel off the map.
    pub const OUTSIDE: RegionId = RegionId(u32::MAX);
}

/// A segment, walked from its first point to its last, or reversed.
#[derive(Clone, Copy, Debug, PartialEq, Eq, Hash)]
pub struct SegRef {
    pub segment: SegmentId,
    pub reversed: bool,
}

impl SegRef {
    fn of(word: u32) -> SegRef {
        SegRef {
            segment: SegmentId(word / 2),
            reversed: word % 2 == 1,
        }
    }
}

/// A corner of the lattice; y grows downwards.
#[derive(Clone, Copy, Debug, PartialEq, Eq, PartialOrd, Ord, Hash)]
pub struct Point {
    pub x: u32,
    pub y: u32,
}

/// A pixel by its column and row; y grows downwards.
#[derive(Clone, Copy, Debug, PartialEq, Eq, PartialOrd, Ord, Hash)]
pub struct Pixel {
    pub x: u32,
    pub y: u32,
}

/// The heading of a unit step.
#[derive(Clone, Copy, Debug, PartialEq, Eq, Hash)]
pub enum Direction {
    North,
    East,
    South,
    West,
}

impl Direction {
    /// All four, in the order of their numbers.
    pub const ALL: [Direction; 4] = [
        Direction::North,
        Direction::East,
        Direction::South,
        Direction::West,
    ];

    fn of(word: u32) -> Direction {
        Direction::ALL[word as usize]
    }

    /// The way back.
    pub fn reverse(self) -> Direction {
        Direction::ALL[(self as usize + 2) % 4]
    }
}

/// A corner where three or four cuts meet.
#[derive(Clone, Copy, Debug, PartialEq, Eq)]
pub struct Node {
    pub corner: Point,
    out: [u32; 4],
}

impl Node {
    /// The segment that leaves in the direction, if there is a cut that way.
    pub fn out(&self, direction: Direction) -> Option<SegRef> {
        match self.out[direction as usize] {
            NONE => None,
            word => Some(SegRef::of(word)),
        }
    }
}

/// The stores as the library fills them, record by record.
#[derive(Clone, Debug, Default, PartialEq, Eq)]
pub(crate) struct Stores {
    pub nodes: Vec<[u32; 6]>,
    pub segments: Vec<[u32; 8]>,
    pub points: Vec<[u32; 2]>,
    pub references: Vec<[u32; 1]>,
    pub contours: Vec<[u32; 2]>,
    pub faces: Vec<[u32; 5]>,
}

impl Stores {
    /// The records that an answer counts, without the room behind them.
    pub fn trimmed(mut self, answer: &Answer) -> Stores {
        trim(&mut self.nodes, answer.nodes);
        trim(&mut self.segments, answer.segments);
        trim(&mut self.points, answer.points);
        trim(&mut self.references, answer.references);
        trim(&mut self.contours, answer.contours);
        trim(&mut self.faces, answer.faces);
        self
    }
}

fn trim<T>(store: &mut Vec<T>, count: u32) {
    store.truncate(count as usize);
    store.shrink_to_fit();
}

/// The nodes, segments and faces of a map.
#[derive(Clone, Debug, PartialEq, Eq)]
pub struct CutList {
    stores: Stores,
    answer: Answer,
}

impl CutList {
    /// Of stores that a call has filled, with its answer.
    pub(crate) fn new(stores: Stores, answer: Answer) -> CutList {
        CutList { stores, answer }
    }

    /// The records themselves.
    pub(crate) fn stores(&self) -> &Stores {
        &self.stores
    }

    /// The seven counts of the map, as the library gave them.
    pub fn counts(&self) -> [u32; 7] {
        let a = &self.answer;
        [
            a.nodes,
            a.segments,
            a.points,
            a.references,
            a.contours,
            a.faces,
            a.steps,
        ]
    }

    /// The node with this number. Panics where there is none.
    pub fn node(&self, id: NodeId) -> Node {
        let [x, y, north, east, south, west] = self.stores.nodes[id.0 as usize];
        Node {
            corner: Point { x, y },
            out: [north, east, south, west],
        }
    }

    /// All nodes, by number.
    pub fn nodes(&self) -> impl ExactSizeIterator<Item = Node> + DoubleEndedIterator + '_ {
        (0..self.answer.nodes).map(move |n| self.node(NodeId(n)))
    }

    /// The segment with this number. Panics where there is none.
    pub fn segment(&self, id: SegmentId) -> Segment<'_> {
        let record = self.stores.segments[id.0 as usize];
        Segment {
            list: self,
            id,
            record,
        }
    }

    /// All segments, by number.
    pub fn segments(
        &self,
    ) -> impl ExactSizeIterator<Item = Segment<'_>> + DoubleEndedIterator + '_ {
        (0..self.answer.segments).map(move |s| self.segment(SegmentId(s)))
    }

    /// The points along a reference, in its direction. Panics where there is no such segment.
    pub fn path(&self, reference: SegRef) -> impl Iterator<Item = Point> + '_ {
        let points = self.segment(reference.segment).points();
        // One iterator for both directions: of the two halves one is always empty.
        let (forward, backward) = match reference.reversed {
            false => (Some(points), None),
            true => (None, Some(points.rev())),
        };
        let forward = forward.into_iter().flatten();
        forward.chain(backward.into_iter().flatten())
    }

    /// All faces, by number: by region, then by first pixel.
    pub fn faces(&self) -> impl ExactSizeIterator<Item = Face<'_>> + DoubleEndedIterator + '_ {
        self.stores
            .faces
            .iter()
            .map(move |&record| Face { list: self, record })
    }
}

/// The words of a part of a store, given by its first record and their number.
fn part<T>(store: &[T], first: u32, count: u32) -> &[T] {
    &store[first as usize..][..count as usize]
}

/// A cut from node to node, or a ring.
#[derive(Clone, Copy)]
pub struct Segment<'a> {
    list: &'a CutList,
    id: SegmentId,
    record: [u32; 8],
}

impl<'a> Segment<'a> {
    pub fn id(&self) -> SegmentId {
        self.id
    }

    /// Whether the segment comes back to its own first point without meeting a node.
    pub fn is_ring(&self) -> bool {
        self.start().is_none()
    }

    /// The node it starts from; a ring has none.
    pub fn start(&self) -> Option<NodeId> {
        node(self.record[2])
    }

    /// The node it ends at; a ring has none.
    pub fn end(&self) -> Option<NodeId> {
        node(self.record[3])
    }

    /// The region on the left, seen along the segment.
    pub fn left(&self) -> RegionId {
        RegionId(self.record[4])
    }

    /// The region on the right.
    pub fn right(&self) -> RegionId {
        RegionId(self.record[5])
    }

    /// The heading of its first step.
    pub fn first_direction(&self) -> Direction {
        Direction::of(self.record[6])
    }

    /// The heading of its last step; a ring has none.
    pub fn last_direction(&self) -> Option<Direction> {
        self.end().map(|_| Direction::of(self.record[7]))
    }

    /// Its corners, one unit step apart. The last of a ring is its first again.
    pub fn points(&self) -> impl ExactSizeIterator<Item = Point> + DoubleEndedIterator + 'a {
        let [first, count, ..] = self.record;
        let points = part(&self.list.stores.points, first, count);
        points.iter().map(|&[x, y]| Point { x, y })
    }
}

fn node(word: u32) -> Option<NodeId> {
    match word {
        NONE => None,
        number => Some(NodeId(number)),
    }
}

/// One piece: pixels of one painted label that hang together, also across a corner.
#[derive(Clone, Copy)]
pub struct Face<'a> {
    list: &'a CutList,
    record: [u32; 5],
}

impl<'a> Face<'a> {
    /// The label of its pixels.
    pub fn region(&self) -> RegionId {
        RegionId(self.record[0])
    }

    /// The first of its pixels, row by row: a name for the piece that stays while face numbers move.
    pub fn first_pixel(&self) -> Pixel {
        let [.., x, y] = self.record;
        Pixel { x, y }
    }

    /// Its outline and the rims of its holes, each with the face on the left.
    pub fn contours(
        &self,
    ) -> impl ExactSizeIterator<Item = Contour<'a>> + DoubleEndedIterator + 'a {
        let [_, first, count, ..] = self.record;
        let list = self.list;
        let contours = part(&list.stores.contours, first, count);
        contours.iter().map(move |&record| Contour { list, record })
    }
}

/// A closed line of segments around a face or one of its holes.
#[derive(Clone, Copy)]
pub struct Contour<'a> {
    list: &'a CutList,
    record: [u32; 2],
}

impl<'a> Contour<'a> {
    /// Its segments, each in the direction in which it has the face on the left.
    pub fn references(&self) -> impl ExactSizeIterator<Item = SegRef> + DoubleEndedIterator + 'a {
        let [first, count] = self.record;
        let references = part(&self.list.stores.references, first, count);
        references.iter().map(|&[word]| SegRef::of(word))
    }

    /// Its corners in order, one unit step apart, the first of them only once.
    pub fn corners(&self) -> impl Iterator<Item = Point> + 'a {
        let list = self.list;
        self.references()
            .flat_map(move |reference| list.path(reference).skip(1))
    }

    /// Its own sum: y for each unit step east, minus y for each west. The sums of a face's contours are together its pixel count.
    pub fn sum(&self) -> i64 {
        let list = self.list;
        let east = |reference| {
            let points = list.path(reference);
            let next = list.path(reference).skip(1);
            points
                .zip(next)
                .map(|(a, b)| (i64::from(b.x) - i64::from(a.x)) * i64::from(a.y))
        };
        self.references().flat_map(east).sum()
    }

    /// Whether it is the outline of its face and not the rim of a hole: its own sum is above zero. It need not be the first contour.
    pub fn is_outline(&self) -> bool {
        self.sum() > 0
    }
}
