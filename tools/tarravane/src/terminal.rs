//! Whether an output is a terminal, by the name that Linux has for it: `std::io::IsTerminal` is younger than Rust 1.63.
use std::fs::read_link;

const NAMES: [&str; 4] = ["/dev/pts/", "/dev/tty", "/dev/console", "/dev/hvc"];

fn is_terminal(descriptor: u32) -> bool {
    read_link(format!("/proc/self/fd/{descriptor}")).map_or(false, |name| {
        let name = name.to_string_lossy();
        NAMES.iter().any(|start| name.starts_with(start))
    })
}

/// Is standard output one?
pub fn is_output() -> bool {
    is_terminal(1)
}

/// Is standard error one?
pub fn is_error() -> bool {
    is_terminal(2)
}
