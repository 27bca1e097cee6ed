//! A map from layers: the labels, the paint count, the refusals.

use mosaic::layers::{flatten, Layers, Refusal};
use mosaic::{cut, Map, RegionId};

const OUTSIDE: u32 = RegionId::OUTSIDE.0;

#[test]
fn the_last_layer_wins() {
    let mut layers = Layers::new();
    layers.push((0, 0), (2, 1), &[1, 1]).unwrap();
    layers.push((1, 0), (2, 1), &[1, 0]).unwrap();
    assert_eq!(layers.len(), 2);
    assert_eq!(layers.flatten(4, 1), Ok((vec![0, 1, OUTSIDE, OUTSIDE], 2)));
}

#[test]
fn offsets_are_signed_and_sums_exact() {
    let mut layers = Layers::new();
    layers.push((-1, -1), (2, 2), &[0, 0, 0, 1]).unwrap();
    layers.push((i32::MAX, 0), (2, 1), &[1, 1]).unwrap();
    layers.push((i32::MIN, 0), (2, 1), &[1, 1]).unwrap();
    layers.push((0, 0), (0, u32::MAX), &[]).unwrap();
    assert_eq!(layers.flatten(2, 1), Ok((vec![0, OUTSIDE], 4)));
}

#[test]
fn no_layers_and_no_pixels() {
    let mut layers = Layers::new();
    assert!(layers.is_empty());
    assert_eq!(layers.flatten(1, 1), Ok((vec![OUTSIDE], 0)));
    layers.push((0, 0), (1, 1), &[1]).unwrap();
    assert_eq!(layers.flatten(0, 16_384), Ok((vec![], 1)));
}

#[test]
fn refusals_write_nothing() {
    let refused = |width, layers: &[u32], masks: &[u8], room: usize| {
        let mut labels = vec![7; room];
        let refusal = flatten(width, 1, layers, masks, &mut labels).unwrap_err();
        assert!(labels.iter().all(|&label| label == 7));
        refusal.number().unwrap()
    };
    assert_eq!(refused(16_385, &[0], &[2], 1), 1);
    assert_eq!(refused(1, &[0, 0, 1], &[], 1), 11);
    assert_eq!(refused(1, &[0, 0, 1, 1], &[], 1), 11);
    assert_eq!(refused(1, &[0, 0, 1, 1], &[1, 1], 1), 11);
    assert_eq!(refused(1, &[0, 0, 1, 1], &[2], 1), 11);
    assert_eq!(refused(1, &[0, 0, 1, 1], &[1], 2), 11);
    assert_eq!(
        refused(1, &[0, 0, 1, 1].repeat(65_536), &[1; 65_536], 1),
        11
    );
}

#[test]
fn as_many_layers_as_may_be() {
    let mut labels = [7];
    flatten(
        1,
        1,
        &[0, 0, 1, 1].repeat(65_535),
        &[1; 65_535],
        &mut labels,
    )
    .unwrap();
    assert_eq!(labels, [65_534]);
}

#[test]
fn the_builder_refuses() {
    let mut layers = Layers::new();
    assert_eq!(
        layers.push((0, 0), (2, 1), &[1]).unwrap_err(),
        Refusal::NotWhole
    );
    assert!(layers.is_empty());
    layers.push((0, 0), (1, 1), &[2]).unwrap();
    assert_eq!(layers.flatten(1, 1), Err(Refusal::NotWhole));
    assert_eq!(layers.flatten(1, 16_385), Err(Refusal::SideTooLong));
    assert_eq!(Refusal::NoMemory.number(), None);
}

#[test]
fn from_layers_to_faces() {
    let mut layers = Layers::new();
    layers.push((0, 0), (3, 3), &[1; 9]).unwrap();
    layers.push((1, 1), (1, 1), &[1]).unwrap();
    let (labels, paints) = layers.flatten(3, 3).unwrap();
    let list = cut(Map {
        width: 3,
        height: 3,
        paints,
        labels: &labels,
    });
    assert_eq!(list.unwrap().counts(), [0, 2, 18, 3, 3, 2, 16]);
}
