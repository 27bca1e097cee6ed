//! Merging near colours, on maps worked by hand and with every refusal.

use mosaic::{merge_similar, merge_words, Merged, Unmerged};

const OUTSIDE: u32 = u32::MAX;

#[test]
fn the_first_absorbs_the_second() {
    // 0 and 1 are 2 apart and become one of mean 1; 2 is then 3 away, beyond the limit.
    let mut labels = [0, 1, 2];
    let mut colours = [[0, 0, 0], [2, 0, 0], [4, 0, 0]];
    assert_eq!(merge_similar(3, 1, &mut labels, &mut colours, 2), Ok(2));
    assert_eq!(labels, [0, 0, 1]);
    assert_eq!(colours, [[1, 0, 0], [4, 0, 0], [4, 0, 0]]);
}

#[test]
fn a_limit_of_0_merges_equal_colours() {
    let mut labels = [2, 0, OUTSIDE, 1];
    let mut colours = [[7, 7, 7]; 3];
    assert_eq!(merge_similar(2, 2, &mut labels, &mut colours, 0), Ok(1));
    assert_eq!(labels, [0, 0, OUTSIDE, 0]);
}

#[test]
fn corners_do_not_touch() {
    let mut labels = [0, OUTSIDE, OUTSIDE, 1];
    let mut colours = [[5, 5, 5]; 2];
    assert_eq!(merge_similar(2, 2, &mut labels, &mut colours, 765), Ok(2));
}

#[test]
fn nothing_but_outside_leaves_no_paint() {
    let mut labels = [OUTSIDE; 4];
    let mut colours = [[1, 2, 3], [4, 5, 6]];
    assert_eq!(merge_similar(2, 2, &mut labels, &mut colours, 0), Ok(0));
    assert_eq!(colours, [[1, 2, 3], [4, 5, 6]]);
}

#[test]
fn without_a_merge_all_stays() {
    let mut labels = [9, 1];
    let mut colours = [[1, 2, 3], [1, 2, 3]];
    assert_eq!(merge_similar(2, 1, &mut labels, &mut colours, -1), Ok(2));
    assert_eq!(
        merge_similar(2, 1, &mut labels, &mut colours[..1], 5),
        Ok(1)
    );
    assert_eq!((labels, colours), ([9, 1], [[1, 2, 3], [1, 2, 3]]));
}

#[test]
fn refusals() {
    let mut colours = [[0; 3]; 2];
    let long = merge_similar(16_385, 0, &mut [], &mut colours, 0);
    assert_eq!(long, Err(Unmerged::SideTooLong));
    let count = merge_similar(2, 1, &mut [0], &mut colours, 0);
    assert_eq!(count, Err(Unmerged::WrongLabelCount));
    let stray = merge_similar(2, 1, &mut [0, 2], &mut colours, 0);
    assert_eq!(stray, Err(Unmerged::UnpaintedLabel));
}

/// 17 comes after 3, and changes nothing, the work store neither.
#[test]
fn stores_of_another_length() {
    let refused = |bytes: usize, rooms: usize, words: usize| {
        let (mut labels, mut colours) = ([0, 1], vec![6; bytes]);
        let (mut work, mut regions) = (vec![8; words], vec![9; rooms]);
        let said = merge_words(
            2,
            1,
            2,
            &mut labels,
            &mut colours,
            0,
            &mut work,
            &mut regions,
        );
        let stays =
            colours == vec![6; bytes] && work == vec![8; words] && regions == vec![9; rooms];
        assert!(labels == [0, 1] && stays);
        said
    };
    let number = |number| Merged { number, paints: 0 };
    assert_eq!(refused(5, 24, 48), number(17));
    assert_eq!(refused(7, 24, 48), number(17));
    assert_eq!(refused(6, 23, 48), number(17));
    assert_eq!(refused(5, 23, 47), number(3));
}

/// The first words of both stores are 0 afterwards, those past them stay.
#[test]
fn words_past_the_stores_stay() {
    let (mut labels, mut colours) = ([0, 1], [3; 6]);
    let (mut work, mut regions) = (vec![8; 50], vec![9; 26]);
    let said = merge_words(
        2,
        1,
        2,
        &mut labels,
        &mut colours,
        0,
        &mut work,
        &mut regions,
    );
    assert_eq!(
        said,
        Merged {
            number: 0,
            paints: 1
        }
    );
    assert_eq!(work, [vec![0; 48], vec![8; 2]].concat());
    assert_eq!(regions, [vec![0; 24], vec![9; 2]].concat());
}
