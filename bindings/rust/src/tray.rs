//! Many small maps in one call, over one label store.

use crate::cutter::{lent, zeroed, LONGEST_SIDE};
use crate::ffi::Answer;
use crate::list::Stores;
use crate::{CutList, Mode, Refusal};

extern "C" {
    /// As `include/mosaic.h` declares it.
    pub fn mosaic_tray(
        mode: u32,
        maps: *const u32,
        maps_len: usize,
        labels: *const u32,
        labels_len: usize,
        work: *mut u32,
        work_len: usize,
        nodes: *mut u32,
        nodes_len: usize,
        segments: *mut u32,
        segments_len: usize,
        points: *mut u32,
        points_len: usize,
        references: *mut u32,
        references_len: usize,
        contours: *mut u32,
        contours_len: usize,
        faces: *mut u32,
        faces_len: usize,
        answers: *mut u32,
        answers_len: usize,
    ) -> u32;
}

/// A map of a tray: its labels are the next width × height of the tray's.
#[derive(Clone, Copy, Debug, PartialEq, Eq)]
pub struct Tile {
    pub width: u32,
    pub height: u32,
    pub paints: u32,
}

/// The cut list of each map of a tray, or why it has none: what [`cut_in`](crate::cut_in) gives for the map on its own. A map whose labels
/// run past `labels` is refused, and so is every later one; any other refused map leaves the others as they are.
///
/// The whole tray is refused only where its stores cannot be had.
///
/// ```
/// use mosaic::{tray, Mode, Refusal, Tile};
///
/// let tile = |width, height| Tile { width, height, paints: 2 };
/// let lists = tray(Mode::Plain, &[tile(2, 1), tile(16385, 0), tile(1, 1)], &[0, 1, 0])?;
/// assert_eq!(lists[0].as_ref().unwrap().faces().len(), 2);
/// assert_eq!(lists[1], Err(Refusal::SideTooLong));
/// assert_eq!(lists[2].as_ref().unwrap().faces().len(), 1);
/// # Ok::<(), Refusal>(())
/// ```
pub fn tray(
    mode: Mode,
    tiles: &[Tile],
    labels: &[u32],
) -> Result<Vec<Result<CutList, Refusal>>, Refusal> {
    let room = Room::of(tiles, labels.len());
    let mut work = zeroed::<1>(room.work)?;
    let mut stores = Stores {
        nodes: zeroed(room.corners)?,
        segments: zeroed(room.cracks)?,
        points: zeroed(2 * room.cracks)?,
        references: zeroed(2 * room.cracks)?,
        contours: zeroed(room.corners)?,
        faces: zeroed(room.pixels)?,
    };
    let mut maps = zeroed::<3>(tiles.len())?;
    for (map, tile) in maps.iter_mut().zip(tiles) {
        *map = [tile.width, tile.height, tile.paints];
    }
    let mut answers = zeroed::<8>(tiles.len())?;
    let number = call(
        mode,
        &mut maps,
        labels,
        &mut work,
        &mut stores,
        &mut answers,
    );
    assert_eq!(number, 0, "with eight answer words for each map");
    Ok(apart(&stores, &answers))
}

/// The call itself.
fn call(
    mode: Mode,
    maps: &mut [[u32; 3]],
    labels: &[u32],
    work: &mut [[u32; 1]],
    stores: &mut Stores,
    answers: &mut [[u32; 8]],
) -> u32 {
    let (maps, maps_len) = lent(maps);
    let (work, work_len) = lent(work);
    let (nodes, nodes_len) = lent(&mut stores.nodes);
    let (segments, segments_len) = lent(&mut stores.segments);
    let (points, points_len) = lent(&mut stores.points);
    let (references, references_len) = lent(&mut stores.references);
    let (contours, contours_len) = lent(&mut stores.contours);
    let (faces, faces_len) = lent(&mut stores.faces);
    let (answers, answers_len) = lent(answers);
    // SAFETY: each pointer and length is a vector of its own, aligned for words: no two overlap, and the labels are borrowed. The
    // library's promise holds for stores of any length, whatever words they hold.
    unsafe {
        mosaic_tray(
            mode.word(),
            maps,
            maps_len,
            labels.as_ptr(),
            labels.len(),
            work,
            work_len,
            nodes,
            nodes_len,
            segments,
            segments_len,
            points,
            points_len,
            references,
            references_len,
            contours,
            contours_len,
            faces,
            faces_len,
            answers,
            answers_len,
        )
    }
}

/// Room for the records of all maps that are looked at, whatever their labels, and work words for the largest of them.
#[derive(Default)]
struct Room {
    work: usize,
    corners: usize,
    cracks: usize,
    pixels: usize,
}

impl Room {
    fn of(tiles: &[Tile], labels: usize) -> Room {
        let mut room = Room::default();
        let mut left = labels as u64;
        for tile in tiles {
            let size = u64::from(tile.width) * u64::from(tile.height);
            if size > left {
                break;
            }
            left -= size;
            let (width, height) = (tile.width as usize, tile.height as usize);
            if width.max(height) <= LONGEST_SIDE {
                let corners = (width + 1) * (height + 1);
                room.work = room.work.max(8 * corners);
                room.corners += corners;
                room.cracks += 2 * width * height + width + height;
                room.pixels += width * height;
            }
        }
        room
    }
}

/// Each map's own records, which lie behind those of the maps before it.
fn apart(stores: &Stores, answers: &[[u32; 8]]) -> Vec<Result<CutList, Refusal>> {
    let mut nodes = stores.nodes.iter().copied();
    let mut segments = stores.segments.iter().copied();
    let mut points = stores.points.iter().copied();
    let mut references = stores.references.iter().copied();
    let mut contours = stores.contours.iter().copied();
    let mut faces = stores.faces.iter().copied();
    let mut own = |answer: Answer| Stores {
        nodes: nodes.by_ref().take(answer.nodes as usize).collect(),
        segments: segments.by_ref().take(answer.segments as usize).collect(),
        points: points.by_ref().take(answer.points as usize).collect(),
        references: references
            .by_ref()
            .take(answer.references as usize)
            .collect(),
        contours: contours.by_ref().take(answer.contours as usize).collect(),
        faces: faces.by_ref().take(answer.faces as usize).collect(),
    };
    let answered = answers.iter().map(|&words| {
        let answer = answer(words);
        match answer.number {
            0 => Ok(CutList::new(own(answer), answer)),
            1 => Err(Refusal::SideTooLong),
            2 => Err(Refusal::WrongLabelCount),
            number => unreachable!("number {} with room for all records", number),
        }
    });
    answered.collect()
}

fn answer(words: [u32; 8]) -> Answer {
    let [number, nodes, segments, points, references, contours, faces, steps] = words;
    Answer {
        number,
        nodes,
        segments,
        points,
        references,
        contours,
        faces,
        steps,
    }
}
