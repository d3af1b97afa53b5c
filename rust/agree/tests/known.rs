//! Layout and soundness on small states whose numbers were worked out by hand from docs/STATE.md.
use agree::buffers::Buffers;
use agree::layout;
use agree::sound::sound;
use model::Machine;

/// Seat 0 with 8 cells and 4 threads, this image, and these picks run.
fn state(image: &[u8], picks: &[u8]) -> Buffers {
    let mut machine = Machine::open(&[8, 4]).unwrap();
    machine.load(0, image).unwrap();
    for pick in picks {
        machine.entry(0, *pick);
    }
    let mut buffers = Buffers::bare();
    layout::write(&machine, &mut buffers);
    assert_eq!(layout::read(&buffers).report(0), machine.report(0));
    buffers
}

/// W5: two threads wait for cell 1.
const CROWD: [u8; 19] = [
    0x80, 2, 0x85, 0x18, 0x0A, 0, 0x18, 0x0D, 0, 4, 7, 1, 0, 5, 1, 0, 5, 1, 0,
];

#[test]
fn waiting_threads_join_the_back_of_the_row() {
    let buffers = state(&CROWD, &[0, 0, 1, 1]);
    assert_eq!(buffers.book[..10], [8, 4, 19, 3, 2, 3, 0, 0, 4, 0]);
    let row = [
        0x0004_0000_0006_0001,
        0x0004_0000_000C_0003,
        0x0004_0000_000F_0003,
        0,
    ];
    assert_eq!(buffers.heads[..4], row);
    assert_eq!(buffers.images[..20], [&CROWD[..], &[0]].concat());
    assert!(sound(&buffers));
}

#[test]
fn woken_threads_join_newest_first() {
    let buffers = state(&CROWD, &[0, 0, 1, 1, 0, 0]);
    let row = [
        0x0004_0000_0009_0001,
        0x0004_0000_000F_0001,
        0x0004_0000_000C_0001,
        0,
    ];
    assert_eq!(buffers.heads[..4], row);
    assert_eq!(buffers.tags[..3], [0, 4, 0]);
    assert!(sound(&buffers));
}

#[test]
fn cells_have_tags_and_words() {
    let image = [
        0x80, 2, 0x81, 1, 0, 0, 0, 0, 0, 0, 0, 0x85, 9, 1, 7, 0, 0x0C, 0, 0,
    ];
    let buffers = state(&image, &[0, 0, 0]);
    assert_eq!(buffers.book[..9], [8, 4, 19, 12, 3, 1, 0, 0, 3]);
    assert_eq!(
        (&buffers.tags[..4], &buffers.words[..4]),
        (&[5, 1, 8, 0][..], &[2, 1, 0, 0][..])
    );
    assert_eq!(buffers.heads[..2], [0x0004_0000_0004_0004, 0]);
    assert!(sound(&buffers));
}

#[test]
fn a_refused_claim_names_its_thread() {
    // SPAWN 3, then INT 7 and two stores; the second thread is refused.
    let image = [
        0x80, 1, 0x85, 0x18, 3, 0, 1, 7, 0, 0, 0, 0, 0, 0, 0, 7, 0, 7, 0, 0,
    ];
    let buffers = state(&image, &[0, 1, 1, 1]);
    assert_eq!(buffers.book[..9], [8, 4, 20, 3, 1, 2, 5, 1, 4]);
    assert_eq!(
        buffers.heads[..2],
        [0x0004_0000_0003_0001, 0x0001_0000_000E_0001]
    );
    assert_eq!(buffers.accs[..2], [0, 7]);
    assert!(sound(&buffers));
}

#[test]
fn soundness_sees_each_field() {
    let whole = state(&CROWD, &[0, 0, 1, 1]);
    let harms: [fn(&mut Buffers); 17] = [
        |b| b.book[0] = 1,
        |b| b.book[1] = 2,
        |b| b.book[2] = 18,
        |b| b.book[3] = 2,
        |b| b.book[4] = 1,
        |b| b.book[5] = 2,
        |b| b.book[6] = 10,
        |b| b.book[7] = 1,
        |b| b.book[10] = 1,
        |b| b.tags[1] = 4,
        |b| b.tags[2] = 8,
        |b| b.words[0] = 1,
        |b| b.heads[0] += 0x2_0000,
        |b| b.heads[1] += 1,
        |b| b.accs[0] = 1,
        |b| b.images[19] = 1,
        |b| b.images.truncate(32_767),
    ];
    for (i, harm) in harms.iter().enumerate() {
        let mut harmed = whole.clone();
        harm(&mut harmed);
        assert!(!sound(&harmed), "harm {i}");
    }
}

#[test]
fn soundness_allows_what_the_rules_do_not_forbid() {
    let mut buffers = state(&CROWD, &[0, 0, 1, 1]);
    buffers.book[8] = u32::MAX;
    buffers.tags[0] = 8;
    buffers.heads[0] |= 0xFFFF_0000_0000;
    buffers.heads.push(1);
    assert!(sound(&buffers));
    assert!(!sound(&Buffers::bare()));
}
