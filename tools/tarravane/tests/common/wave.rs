//! What `wave` writes.
use super::ended;
use super::folder::Folder;
use super::round::status;
use super::vcd::Dump;
use super::xml::check;
use std::fs;

/// The file of a run on these bytes, whose name has this ending, and what is said beside it.
pub fn wave(trace: &[u8], ending: &str, words: &[&str], status: i32) -> (String, Vec<String>) {
    let folder = Folder::new(&format!("wave-{}", next()));
    let file = folder.path(&format!("a.{ending}"));
    let words = [&["-", "-o", &file], words].concat();
    let (printed, said) = ended("wave", &words, trace, status);
    assert!(printed.is_empty());
    assert!(status == 0 || said.len() == 1, "{said:?}");
    match ending {
        "vcd" => assert_eq!(folder.names(), ["a.gtkw", "a.vcd"]),
        _ => assert_eq!(folder.names(), [format!("a.{ending}")]),
    }
    (fs::read_to_string(&file).expect("the file"), said)
}

/// A number that no other run of this program has.
fn next() -> usize {
    use std::sync::atomic::{AtomicUsize, Ordering};
    static NEXT: AtomicUsize = AtomicUsize::new(0);
    NEXT.fetch_add(1, Ordering::Relaxed)
}

/// The dump of a trace, whole or not.
pub fn dump(trace: &[u8], words: &[&str]) -> Dump {
    let (text, _) = wave(trace, "vcd", words, status(trace));
    Dump::parse(&text)
}

/// The picture of a trace, whole or not.
pub fn picture(trace: &[u8], words: &[&str]) -> String {
    let (text, _) = wave(trace, "svg", words, status(trace));
    check(&text);
    text
}
