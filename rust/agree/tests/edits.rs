//! Every image at one byte's distance from a good one: each byte set to each value, left out, or put in, and each cut.
use agree::buffers::Buffers;
use agree::pair::Pair;
use agree::tally::Tally;

/// Two inputs; BOOL, FRAME, SPAWN, APPLY, SWITCH, GET, END.
const IMAGE: [u8; 27] = [
    0x80, 4, 0x83, 1, 0x84, 0x85, 0x03, 0, 0x0E, 1, 0x18, 2, 0, 0x19, 4, 0, 1, 0x17, 1, 0, 0, 11,
    0, 0x1A, 1, 0, 0,
];

fn edits() -> Vec<Vec<u8>> {
    let mut edits = Vec::new();
    for at in 0..=IMAGE.len() {
        let (front, back) = IMAGE.split_at(at);
        edits.push(front.to_vec());
        for byte in 0..=255 {
            edits.push([front, &[byte], back].concat());
            if let [_, rest @ ..] = back {
                edits.push([front, &[byte], rest].concat());
            }
        }
        if let [_, rest @ ..] = back {
            edits.push([front, rest].concat());
        }
    }
    edits
}

#[test]
fn every_edit_is_judged_alike() {
    let mut tally = Tally::default();
    let opened = Pair::open(&[5, 2], Buffers::bare(), &mut tally);
    let mut pair = opened.unwrap().expect("the shares are good");
    let mut good = 0;
    for image in edits() {
        let number = pair.load(0, &image, &mut tally);
        if number.unwrap_or_else(|difference| panic!("{image:02x?}: {difference}")) == 0 {
            good += 1;
            pair.run(&[0, 0, 0, 0, 0, 1], 3, &mut tally).unwrap();
            pair.clear(0, &mut tally).unwrap();
        }
    }
    assert!(good > 1000, "{good} good images");
}
