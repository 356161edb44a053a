//! The jumper that is worked out by hand in the head of crates/best/specs/Work.antt: its levels read pads 0 to 6, then 0, 2, 4, 6, then 0 and 4, then 0.
#[test]
fn seven_pairs_at_strides_1_2_4_8() {
    let (below, above) = ([0, 1, 2, 3, 9, 10, 11], [0, 1, 2, 3, 4, 5, 6]);
    let mut ladder = [99; 9];
    let best = obrastyn::best(&below, &above, &mut ladder);
    assert_eq!((best.refusal, best.separation, best.lowest, best.highest, best.count), (0, 4, 0, 0, 22));
    assert_eq!(ladder, [7, 3, 4, 2, 2, 1, 1, 0, 99]);
}
