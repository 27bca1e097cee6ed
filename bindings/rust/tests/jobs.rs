//! The job file of two pixels, byte for byte, and what is kept of its parts.

use mosaic::jobs::{salvage, write, WriteRefusal};
use mosaic::{Map, Refusal};

fn map(width: u32, height: u32, paints: u32, labels: &[u32]) -> Map<'_> {
    Map {
        width,
        height,
        paints,
        labels,
    }
}

fn record(kind: u16, words: &[u32]) -> Vec<u8> {
    let mut bytes = (4 * words.len() as u32).to_le_bytes().to_vec();
    bytes.extend(kind.to_le_bytes());
    bytes.extend(words.iter().flat_map(|w| w.to_le_bytes()));
    bytes
}

fn pair() -> Vec<Vec<u8>> {
    vec![
        record(1, &[2, 1, 2]),
        record(2, &[1, 0, 2, 0, 2, 1, 1, 1]),
        record(2, &[1, 0, 1, 1]),
        record(2, &[1, 0, 0, 0, 0, 1, 1, 1]),
        record(3, &[0, 0, 0, 1, 2, 3, 4]),
        record(3, &[1, 1, 0, 1, 2, 1, 2]),
    ]
}

#[test]
fn two_pixels() {
    let file = write(map(2, 1, 2, &[0, 1])).unwrap();
    assert_eq!(file, pair().concat());
    assert_eq!(file.len(), 184);
}

#[test]
fn waste_is_not_cut() {
    assert_eq!(write(map(2, 1, 1, &[5, 6])).unwrap(), record(1, &[2, 1, 1]));
    assert_eq!(write(map(0, 0, 0, &[])).unwrap(), record(1, &[0, 0, 0]));
}

#[test]
fn refused() {
    let refusal = |m| write(m).unwrap_err();
    assert_eq!(
        refusal(map(16_385, 0, 70_000, &[])),
        WriteRefusal::Map(Refusal::SideTooLong)
    );
    assert_eq!(
        refusal(map(2, 1, 70_000, &[0])),
        WriteRefusal::Map(Refusal::WrongLabelCount)
    );
    assert_eq!(
        refusal(map(2, 1, 65_536, &[0, 1])),
        WriteRefusal::TooManyPaints
    );
    assert_eq!(refusal(map(2, 1, 65_536, &[0, 1])).number(), Some(19));
    assert!(write(map(2, 1, 65_535, &[0, 65_534])).is_ok());
}

#[test]
fn salvaged_in_part() {
    let parts = pair();
    let file = parts.concat();
    let whole = salvage(&file).unwrap();
    assert_eq!((whole.bytes, whole.dropped), (file.clone(), 0));
    let mut start = 18;
    for (i, part) in parts.iter().enumerate().skip(1) {
        let kind = u16::from(part[4]);
        for cut in start..start + part.len() {
            let kept = salvage(&file[..cut]).unwrap();
            assert_eq!(kept.bytes, parts[..i].concat());
            assert_eq!(kept.dropped, if cut < start + 6 { 0 } else { kind });
            assert_eq!(salvage(&kept.bytes).map(|s| s.dropped), Some(0));
        }
        start += part.len();
    }
    assert!((0..18).all(|cut| salvage(&file[..cut]).is_none()));
}
