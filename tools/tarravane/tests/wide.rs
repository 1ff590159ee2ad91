//! `explain --wide`: rows that leave nothing out.
mod common;

use common::records::{
    all_at, apart, configure, off_rest, record, record_248, record_64, record_pings, start, REST,
};
use common::{example, explained};
use handler::registers::{Field, Setting};
use handler::{Edition, Wires};

/// The rows, without the two lines above them.
fn rows(words: &[&str], input: &[u8]) -> Vec<String> {
    explained(words, input)[2..].to_vec()
}

/// Every second alert, and no two of them neighbours: counted in a row of 120 columns, named in a wide one.
#[test]
fn every_wire_is_there() {
    for edition in Edition::ALL {
        let half = edition.alerts() / 2;
        let ctrl = edition.registers().class(0, Setting::Ctrl);
        let read = record(edition, 1, ctrl.into(), 0, apart(edition, 0b11));
        let bytes = [start(edition, edition.alerts() as u8), read].concat();
        assert!(rows(&["-"], &bytes)[0].contains(&format!(" wires ~{half} ")));
        let row = &rows(&["-", "--wide"], &bytes)[0];
        let wires: String = (0..half).map(|i| format!(" {}=11", 2 * i)).collect();
        let wanted = format!(" read CLASSA_CTRL wires{wires}: 0x393c ");
        assert!(row.contains(&wanted), "{row}");
    }
}

#[test]
fn every_cause_is_there() {
    for edition in Edition::ALL {
        let alerts = edition.alerts();
        let mut bytes = start(edition, alerts as u8);
        for i in 0..alerts {
            let en = edition.registers().alert(Field::En, i);
            bytes.extend(configure(edition, en, 1));
        }
        bytes.extend(record(edition, 0, 0, 0, all_at(edition, 0b10)));
        let all: Vec<String> = (0..alerts).map(|i| i.to_string()).collect();
        let row = &rows(&["-", "--wide"], &bytes)[2 * alerts];
        let wires = format!(" none wires 0-{}=10 ", alerts - 1);
        assert!(row.contains(&wires), "{row}");
        assert!(row.ends_with(&format!(" ALERT{}", all.join(","))), "{row}");
    }
}

/// All bytes of a malformed record, and the wires that its tick samples.
#[test]
fn a_malformed_record_is_there_by_its_bytes() {
    let bytes = [
        vec![2],
        record_64(1, 321, 0xABCD, (1 << 63, u64::MAX >> 1)),
        record_64(2, 1 << 10 | 321, 0xFFFF_FFFF, REST),
        record_64(2, 321, 1 << 32 | 5, REST),
        record_64(2, 321, 5, REST),
    ]
    .concat();
    let wide = rows(&["-", "--wide"], &bytes);
    for (row, said) in wide.iter().zip([
        "raw 541000000000abcd80000000000000007fffffffffffffff wires 0=10: refused: malformed ",
        "raw d4100000ffffffff0000000000000000ffffffffffffffff: refused: malformed ",
        "raw 94100001000000050000000000000000ffffffffffffffff: refused: malformed ",
        "write CLASSA_CTRL 0x5           staged ",
    ]) {
        assert!(row.contains(said), "{row}");
    }
}

/// The 19 zero bits begin a bit later than the old 20.
#[test]
fn a_malformed_record_of_70_bytes_is_there_by_its_bytes() {
    let bytes = [
        vec![255, 248],
        record_248(1, 1281, 0xABCD, off_rest(&[(247, 0b10)])),
        record_248(2, 1281, 1 << 50 | 5, Wires::REST),
        record_248(2, 1281, 5, Wires::REST),
    ]
    .concat();
    let wide = rows(&["-", "--wide"], &bytes);
    let (zeros, ones) = ("0".repeat(62), "f".repeat(62));
    for (row, said) in wide.iter().zip([
        format!(
            "raw 680800000000abcd{}1{}e wires 247=10: refused: malformed ",
            "0".repeat(61),
            "f".repeat(61)
        ),
        format!("raw a80c000000000005{zeros}{ones}: refused: malformed "),
        "write CLASSA_CTRL 0x5           staged ".to_string(),
    ]) {
        assert!(row.contains(&said), "{row}");
    }
}

/// Four more zero bits stand before the answers; entropy and answers act all the same, and are told.
#[test]
fn a_malformed_record_of_75_bytes_is_there_by_its_bytes() {
    let mut bad = record_pings(0, 0, 0, Wires::REST, (0x2_0004, 0b0001));
    bad[74] |= 0x10;
    let on = record_pings(2, 6, 1, Wires::REST, (1, 0));
    let line = record_pings(0, 0, 0, Wires::REST, (0, 0));
    let bytes = [vec![254, 1], on, line.clone(), line, bad].concat();
    let wide = rows(&["-", "--wide"], &bytes);
    let (zeros, ones) = ("0".repeat(62), "f".repeat(62));
    let raw = format!("raw 0000000000000000{zeros}{ones}0002000418");
    let said = format!("{raw} entropy 0x20004 answers 0: refused: malformed ");
    assert!(wide[3].contains(&said), "{}", wide[3]);
    assert!(wide[3].ends_with(" [ping line 0] [answer line 0] [turn 2 in 5]"));
}

/// A row that has room is the same in both.
#[test]
fn a_row_with_room_is_as_ever() {
    let seal = example("broken-seal.trace");
    // From the lock on no stage is open.
    let locked = [&seal[..], "--from", "15"];
    let wide = [&locked[..], &["--wide"]].concat();
    assert_eq!(rows(&wide, &[]), rows(&locked, &[]));
    let changes = ["--only-changes", "--wide", &seal];
    assert_eq!(rows(&changes, &[]).len(), 16);
}
