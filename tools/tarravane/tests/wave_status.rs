//! How `wave` ends: statuses, and files that are there whole or not at all.
mod common;

use common::folder::Folder;
use common::records::{record_64, REST};
use common::{ended, example, given, program, refused};
use std::fs::{self, File, Permissions};
use std::os::unix::fs::{symlink, PermissionsExt};
use std::process::Stdio;

const ENDINGS: [&str; 2] = ["svg", "vcd"];

/// Words after a trace, and what is said of them.
const BAD: [(&[&str], &str); 12] = [
    (&[], "wave wants -o and a file that ends in .vcd or .svg"),
    (&["-o"], "-o wants a file"),
    (
        &["-o", "-"],
        "-o wants a file that ends in .vcd or .svg, not -",
    ),
    (
        &["-o", "a.png"],
        "-o wants a file that ends in .vcd or .svg, not a.png",
    ),
    (
        &["-o", "svg"],
        "-o wants a file that ends in .vcd or .svg, not svg",
    ),
    (&["-o", "a.svg", "-o", "b.svg"], "wave takes one -o"),
    (&["-", "-o", "a.svg"], "wave takes one trace"),
    (&["-o", "a.svg", "--wide"], "wave has no option --wide"),
    (&["-o", "a.svg", "--all"], "--all is for a dump (.vcd)"),
    (
        &["-o", "a.vcd", "--to", "3"],
        "--from and --to are for a picture (.svg): a viewer shows any part of a dump",
    ),
    (
        &["-o", "a.svg", "--from", "0"],
        "--from wants a tick number from 1 on, not 0",
    ),
    (
        &["-o", "a.svg", "--from", "3", "--to", "2"],
        "--from 3 is after --to 2",
    ),
];

#[test]
fn bad_words_are_one_line_and_status_2() {
    let seal = example("broken-seal.trace");
    for (words, why) in BAD {
        let words = [&[&seal[..]], words].concat();
        assert_eq!(refused("wave", &words, &[]), why);
    }
    let why = "wave wants a trace: a file, or - for standard input";
    assert_eq!(refused("wave", &["-o", "a.svg"], &[]), why);
}

#[test]
fn what_cannot_be_read_is_status_2() {
    let folder = Folder::new("wave-unread");
    let (dir, text) = (example(""), example("broken-seal.txt"));
    for ending in ENDINGS {
        let to = folder.path(&format!("a.{ending}"));
        for (from, why) in [
            ("missing.trace", "cannot open missing.trace: "),
            (&dir, "cannot read "),
            (&text, &format!("{text}: this is a text: ")),
        ] {
            let said = refused("wave", &[from, "-o", &to], &[]);
            assert!(said.starts_with(why), "{said}");
        }
    }
    assert!(folder.names().is_empty());
}

#[test]
fn what_cannot_be_written_is_status_2() {
    let folder = Folder::new("wave-unwritten");
    let seal = example("broken-seal.trace");
    for ending in ENDINGS {
        let name = |name: &str| folder.path(&format!("{name}.{ending}"));
        fs::create_dir(name("folder")).expect("a folder");
        symlink("/dev/full", name("full")).expect("a link");
        for to in [name("folder"), name("full"), name("missing/a")] {
            for input in [&seal[..], "-"] {
                let bytes = fs::read(&seal).expect("the example");
                let said = refused("wave", &[input, "-o", &to], &bytes);
                assert!(said.starts_with(&format!("cannot write {to}: ")), "{said}");
            }
        }
        fs::remove_dir(name("folder")).expect("it is empty");
        fs::remove_file(name("full")).expect("a link");
    }
    assert!(folder.names().is_empty());
}

/// The file is not the trace itself, by whatever name.
#[test]
fn the_trace_is_not_written_over() {
    let folder = Folder::new("wave-itself");
    let bytes = fs::read(example("broken-seal.trace")).expect("the example");
    for ending in ENDINGS {
        let (name, link) = (folder.path(&format!("a.{ending}")), folder.path("link"));
        fs::write(&name, &bytes).expect("a trace");
        symlink(&name, &link).expect("a link");
        for from in [&name, &link] {
            let said = refused("wave", &[from, "-o", &name], &[]);
            assert!(said.starts_with("-o names the input itself: "), "{said}");
        }
        assert_eq!(fs::read(&name).expect("the trace"), bytes);
        fs::remove_file(&link).expect("a link");
    }
}

/// An older file of the name is replaced, and keeps its permissions; a failed run leaves it as it was.
#[test]
fn a_file_is_replaced_whole_or_not_at_all() {
    let folder = Folder::new("wave-replaced");
    let seal = example("broken-seal.trace");
    for ending in ENDINGS {
        let to = folder.path(&format!("a.{ending}"));
        fs::write(&to, "older").expect("a file");
        fs::set_permissions(&to, Permissions::from_mode(0o600)).expect("permissions");
        refused("wave", &["missing.trace", "-o", &to], &[]);
        assert_eq!(fs::read_to_string(&to).expect("the file"), "older");
        given("wave", &[&seal, "-o", &to], &[]);
        assert!(fs::read_to_string(&to)
            .expect("the file")
            .contains("broken-seal.trace"));
        let mode = fs::metadata(&to).expect("the file").permissions().mode();
        assert_eq!(mode & 0o777, 0o600);
    }
    assert_eq!(folder.names(), ["a.gtkw", "a.svg", "a.vcd"]);
}

/// What is no file by its name is read once, and kept where it is needed again.
#[test]
fn a_pipe_is_read_as_standard_input_is() {
    let folder = Folder::new("wave-pipe");
    let seal = example("broken-seal.trace");
    let bytes = fs::read(&seal).expect("the example");
    for ending in ENDINGS {
        let to = folder.path(&format!("a.{ending}"));
        given("wave", &["/dev/stdin", "-o", &to], &bytes);
        let piped = fs::read_to_string(&to).expect("the file");
        given("wave", &[&seal, "-o", &to], &[]);
        let named = fs::read_to_string(&to).expect("the file");
        assert_eq!(piped.replace("stdin", "broken-seal.trace"), named);
    }
}

/// A standard input that cannot be read.
#[test]
fn a_failed_read_leaves_no_file() {
    let folder = Folder::new("wave-failed-read");
    for ending in ENDINGS {
        let to = folder.path(&format!("a.{ending}"));
        let mut command = program("wave", &["-", "-o", &to]);
        let input = File::open(example("")).expect("a folder");
        let run = command.stdin(Stdio::from(input)).output().expect("it runs");
        assert_eq!(run.status.code(), Some(2));
        let said = String::from_utf8_lossy(&run.stderr);
        assert!(said.starts_with("tarravane: cannot read -: "), "{said}");
        assert_eq!(said.lines().count(), 1);
    }
    assert!(folder.names().is_empty());
}

/// Cut or refused: the file is there, one line says why, and the status is 1.
#[test]
fn damaged_traces_are_1() {
    let folder = Folder::new("wave-damaged");
    let cut = [vec![1], record_64(0, 0, 0, REST), vec![0; 5]].concat();
    for ending in ENDINGS {
        let to = folder.path(&format!("a.{ending}"));
        for (bytes, start) in [
            (&cut[..], "cut: "),
            (&[], "refused: the trace is empty"),
            (&[65], "refused: the trace asks for 65 alerts"),
            (&[255], "refused: the trace ends after 255"),
            (&[254], "refused: the trace ends after 254"),
            (&[253], "refused: the trace ends after 253"),
        ] {
            let (printed, said) = ended("wave", &["-", "-o", &to], bytes, 1);
            assert!(printed.is_empty());
            assert_eq!(said.len(), 1);
            assert!(said[0].starts_with(start), "{said:?}");
            fs::remove_file(&to).expect("the file is there");
        }
    }
}

#[test]
fn help_says_what_is_shown() {
    for words in [&["--help"][..], &["-h"], &["x", "--help"]] {
        let help = String::from_utf8(given("wave", words, &[])).expect("text");
        for word in [
            "usage: ./tarravane wave",
            ".vcd",
            ".svg",
            "--all",
            "Exit status",
        ] {
            assert!(help.contains(word), "{word}");
        }
    }
}
