//! `wave -o FILE.svg`: what is folded, so that every picture has its size.
mod common;

use common::folder::Folder;
use common::given;
use common::ran::briefs;
use common::records::{configure, off_rest, record, start};
use common::svg::{check_size, check_spans, numbers, texts};
use common::wave::picture;
use handler::registers::{Field, Setting};
use handler::{Edition, Wires};
use harness::generate::{self, Kind};
use harness::rng::Rng;
use std::fs;

/// Rest, with an event in the middle: the calm before it and after its handshake is folded, and counted.
#[test]
fn calm_is_folded_and_marked() {
    let edition = Edition::NEWEST;
    let calm = record(edition, 0, 0, 0, Wires::REST);
    let up = record(edition, 0, 0, 0, off_rest(&[(1, 0b10)]));
    let bytes = [
        start(edition, 2),
        calm.repeat(1_000),
        up,
        calm.repeat(2_000),
    ]
    .concat();
    let picture = picture(&bytes, &[]);
    let folds = texts(&picture, "fold");
    assert_eq!(folds, ["1000 ticks folded", "1997 ticks folded"]);
    assert_eq!(
        texts(&picture, "number fold level"),
        ["1-1000", "1005-3001"]
    );
    let shown = ["1001", "1002", "1003", "1004"];
    assert_eq!(texts(&picture, "number level"), shown);
    assert_eq!(picture.matches("class=\"tear\"").count(), 3);
    assert!(picture.contains(">ALERT1</text>") && !picture.contains(">ALERT0</text>"));
}

/// In a long trace reads are folded before writes, and neither before refusals and events.
#[test]
fn what_matters_is_shown() {
    let edition = Edition::NEWEST;
    let map = edition.registers();
    let access =
        |kind, register: u16, value, wires| record(edition, kind, register.into(), value, wires);
    let read = access(1, map.class(0, Setting::State), 0, Wires::REST).repeat(300);
    let writes = configure(edition, map.class(0, Setting::Phase0Cyc), 7);
    let refused = access(2, 3, 0, Wires::REST);
    let event = access(0, 0, 0, off_rest(&[(1, 0b10)]));
    let parts = [&read, &refused, &read, &event, &read, &writes, &read];
    let parts = parts.map(|part| &part[..]);
    let bytes = [start(edition, 2), parts.concat()].concat();
    let picture = picture(&bytes, &[]);
    assert_eq!(texts(&picture, "refused"), ["write 3 0: no register"]);
    let said = texts(&picture, "said");
    for answer in ["staged", "committed"] {
        assert!(said.contains(&format!("write CLASSA_PHASE0_CYC 7: {answer}")));
    }
    let folds = texts(&picture, "fold");
    assert!(folds.contains(&"300 ticks folded".to_string()), "{folds:?}");
    assert_eq!(numbers(&picture), ["301", "602", "603", "903", "904"]);
    check_size(&picture);
}

/// A boot's writes and locks are folded together, and what comes after it has the room.
#[test]
fn the_locks_of_a_boot_are_folded() {
    let folder = Folder::new("boot-folds");
    let (boot, whole) = (folder.path("boot.trace"), folder.path("attack.txt"));
    given("boot", &["PROD", "--trace", &boot], &[]);
    let text = String::from_utf8(given("record", &["--back", &boot], &[])).expect("text");
    let ticks = text.lines().count() - 2;
    let attack = "none wires 14=10\nnone\nread CLASSA_STATE\nwrite CLASSA_CLR 1\n";
    fs::write(&whole, format!("{text}{attack}")).expect("a text");
    let picture = picture(&given("record", &[&whole], &[]), &[]);
    let folds = texts(&picture, "fold");
    assert_eq!(folds.len(), 2, "{folds:?}");
    assert!(
        folds.contains(&format!("{ticks} ticks folded")),
        "{folds:?}"
    );
    assert!(
        folds
            .iter()
            .any(|fold| fold.ends_with(" accesses, 21 locks")),
        "{folds:?}"
    );
    let after: Vec<String> = (1..=4).map(|tick| (ticks + tick).to_string()).collect();
    assert_eq!(numbers(&picture), after);
}

/// Every record is as wide as any, every alert moves, and all classes go on and on.
fn noisy(edition: Edition, ticks: usize) -> Vec<u8> {
    let (map, mut rng) = (edition.registers(), Rng::new(7));
    let alerts = edition.alerts();
    let mut bytes = start(edition, alerts as u8);
    let mut set = |register, value| bytes.extend(configure(edition, register, value));
    for i in 0..alerts {
        set(map.alert(Field::En, i), 1);
        set(map.alert(Field::Class, i), i as u32 % 4);
    }
    set(1, 15);
    set(map.local(Field::En, 2), 1);
    for k in 0..4 {
        set(map.class(k, Setting::TimeoutCyc), 1 + k as u32);
        set(map.class(k, Setting::Ctrl), 0x393D);
    }
    let mut write = |register: u16, value, wires| {
        bytes.extend(record(edition, 2, register.into(), value, wires));
    };
    let wide = [
        map.class(3, Setting::AccumThresh),
        map.class(2, Setting::Clr),
    ];
    for _ in 0..ticks {
        let mut words = || [(); 4].map(|_| rng.bits());
        let wires = Wires {
            pos: words(),
            neg: words(),
        };
        match rng.below(3) {
            0 => write(map.class(rng.index(4), Setting::Clr), 1, wires),
            _ => write(rng.pick(&wide), u32::MAX.into(), wires),
        }
    }
    bytes
}

#[test]
fn no_picture_is_a_megabyte() {
    for edition in Edition::ALL {
        for bytes in [
            noisy(edition, 40_000),
            noisy(edition, 70),
            generate::trace(edition, Kind::Full, 1),
        ] {
            let picture = picture(&bytes, &[]);
            check_size(&picture);
            let all = briefs(&bytes);
            check_spans(&picture, &all, 1, all.len() as u64);
        }
    }
}
