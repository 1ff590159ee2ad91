//! The help of each command, as the launcher prints it without a build.

pub const BOOT: &str = include_str!("../../../launcher/help/boot.txt");

pub const CALM: &str = include_str!("../../../launcher/help/calm.txt");

pub const DIFF: &str = include_str!("../../../launcher/help/diff.txt");

pub const DUMP: &str = include_str!("../../../launcher/help/dump.txt");

pub const EXPLAIN: &str = include_str!("../../../launcher/help/explain.txt");

pub const READ: &str = include_str!("../../../launcher/help/read.txt");

pub const RECORD: &str = include_str!("../../../launcher/help/record.txt");

pub const WAVE: &str = include_str!("../../../launcher/help/wave.txt");
