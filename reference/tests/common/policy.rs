//! The boot policy in another form than the crate's: a letter for each alert,
//! and what a boot leaves, set by hand.

use reference::{install, Access, Handler, Installed};

/// The lifecycles by number: RAW/TEST, PROD, PROD_END, DEV, RMA, SCRAP.
pub const LIFECYCLES: [u8; 6] = [0, 1, 2, 3, 4, 5];

const PROD: &[u8; 58] = b"CCCCCCCCCCCCCCAAAAAACCCCCCCCCCCBDACCDAAAADDADAADADAADAADAD";
const DEV: &[u8; 58] = b"XXXXXXDDXXXXXXDDDDDDXXXXXXXXXXXDDDXXDDDDDDDDDDDDDDDDDDDDDD";
const NONE: &[u8; 58] = &[b'X'; 58];

/// The letter of each alert.
pub fn letters(lifecycle: u8) -> &'static [u8; 58] {
    match lifecycle {
        1 | 2 => PROD,
        3 => DEV,
        0 | 4 | 5 => NONE,
        _ => panic!("no lifecycle"),
    }
}

/// EN and CLASS of an alert with this letter.
pub fn alert(letter: u8) -> (u8, u8) {
    match letter {
        b'X' => (0, 0),
        _ => (1, letter - b'A'),
    }
}

/// CTRL of each class.
pub fn ctrls(lifecycle: u8) -> [u16; 4] {
    match lifecycle {
        1 | 2 => [0x393F, 0x393D, 0x393C, 0x393C],
        3 => [0x393D, 0x393D, 0x393C, 0x393C],
        _ => [0x393C; 4],
    }
}

/// The four lengths of each class.
pub const LENGTHS: [[u32; 4]; 4] = [[0, 10, 10, u32::MAX], [0, 10, 10, u32::MAX], [0; 4], [0; 4]];

/// The handler with the policy set by hand.
pub fn booted(mut h: Handler, lifecycle: u8) -> Handler {
    for (i, letter) in letters(lifecycle).iter().enumerate() {
        (h.alerts[i].en, h.alerts[i].class) = alert(*letter);
        if *letter == b'A' {
            h.alerts[i].regwen = 0;
        }
    }
    for (k, class) in h.classes.iter_mut().enumerate() {
        class.ctrl = ctrls(lifecycle)[k];
        class.phase_cyc = LENGTHS[k];
        (class.accum_thresh, class.timeout_cyc) = (0, 0);
    }
    if lifecycle == 1 || lifecycle == 2 {
        h.classes[0].regwen = 0;
    }
    h
}

/// The shadowed registers of a boot and their values, in order.
pub fn configured(lifecycle: u8) -> Vec<(u16, u32)> {
    let mut rows = Vec::new();
    for (i, letter) in (0..).zip(letters(lifecycle)) {
        let (en, class) = alert(*letter);
        rows.extend([(768 + i, class.into()), (512 + i, en.into())]);
    }
    for (k, at) in [1280, 1296, 1312, 1328].into_iter().enumerate() {
        rows.extend([(at + 5, 0), (at + 6, 0)]);
        rows.extend((at + 7..).zip(LENGTHS[k]));
        rows.push((at + 1, ctrls(lifecycle)[k].into()));
    }
    rows
}

/// The locks of a boot, in order.
pub fn locks(lifecycle: u8) -> Vec<u16> {
    let rows = (256..).zip(letters(lifecycle));
    let mut locks: Vec<u16> = rows.filter(|row| *row.1 == b'A').map(|row| row.0).collect();
    if lifecycle == 1 || lifecycle == 2 {
        locks.push(1280);
    }
    locks
}

/// The accesses of a boot, each with the answer on which it goes on.
pub fn boot(lifecycle: u8) -> Vec<(Access, i64)> {
    let write = |register, value| (Access::Write { register, value }, 0);
    let mut list = Vec::new();
    for (register, value) in configured(lifecycle) {
        list.extend([write(register, value); 2]);
        list.push((Access::Read { register }, value.into()));
    }
    for register in locks(lifecycle) {
        list.extend([write(register, 0), (Access::Read { register }, 0)]);
    }
    list
}

/// A boot that is to succeed.
pub fn success(h: Handler, lifecycle: u8) -> Handler {
    let Installed {
        handler,
        answer,
        register,
    } = install(h, lifecycle);
    assert_eq!((answer, register), (0, 0), "lifecycle {lifecycle}");
    handler
}
