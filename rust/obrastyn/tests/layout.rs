//! Where the numbers of a record stand, which callers from C have compiled in: the order, then its answer.
use obrastyn::{Line, Order};
use std::mem::{offset_of, size_of};

#[test]
fn record() {
    let wish = (offset_of!(Order, separation), offset_of!(Order, offset));
    assert_eq!((offset_of!(Order, bottom), offset_of!(Order, top), offset_of!(Order, pairs), wish), (0, 8, 16, (24, 28)));
    assert_eq!((offset_of!(Line, order), offset_of!(Line, answer), size_of::<Line>()), (0, 32, 96));
}
