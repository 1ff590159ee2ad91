//! Registers that do not take what is written. No state shows whether an
//! installer compares what it reads back, as a right handler takes every value;
//! a copy of the reference whose handler loses one value shows it.

use crate::copied::{library, program, Slip};
use std::fs;
use std::process::Command;

/// Boots a new handler for PROD, and prints where it stopped and the answer.
const BOOT: &str = "fn main() {
    let (new, _) = reference::Handler::new(58);
    let given = reference::install(new, 1);
    println!(\"{} {}\", given.register, given.answer);
}";

/// Where accepted values are stored.
const STORED: &str =
    "Register::Alert(field, i) => write_source(&mut self.alerts[i], field, value),";

/// The register of this pattern loses its values.
macro_rules! lost {
    ($name:literal, $register:literal) => {
        Slip {
            name: $name,
            file: "access.rs",
            right: STORED,
            wrong: concat!(
                $register,
                " => {}
            Register::Alert(field, i) => write_source(&mut self.alerts[i], field, value),"
            ),
        }
    };
}

/// Each with the register at which a boot stops, and what that reads.
const FAULTS: [(Slip, &str); 5] = [
    (
        lost!(
            "alert 31's CLASS",
            "Register::Alert(SourceField::Class, 31)"
        ),
        "799 0",
    ),
    (
        lost!("alert 57's EN", "Register::Alert(SourceField::En, 57)"),
        "569 0",
    ),
    (
        lost!("class A's CTRL", "Register::Class(ClassField::Ctrl, 0)"),
        "1281 14652",
    ),
    (
        lost!(
            "alert 56's lock",
            "Register::Alert(SourceField::Regwen, 56)"
        ),
        "312 1",
    ),
    (
        lost!("class A's lock", "Register::Class(ClassField::Regwen, 0)"),
        "1280 1",
    ),
];

#[test]
fn a_value_that_is_lost_is_read_back() {
    for (number, (fault, wanted)) in FAULTS.iter().enumerate() {
        let directory = library(&format!("fault{number}"), fault);
        fs::write(directory.join("boot.rs"), BOOT).unwrap();
        let boot = program(&directory, "boot.rs");
        let printed = Command::new(boot).output().expect("it runs").stdout;
        assert_eq!(
            String::from_utf8_lossy(&printed).trim(),
            *wanted,
            "{}",
            fault.name
        );
    }
}
