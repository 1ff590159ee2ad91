//! A view for GTKWave beside a dump, so that it opens with its signals shown and all ticks in sight: FILE.gtkw.
use super::signal::{Scope, Signal};
use super::value::Kind;

/// What begins a view that is written here: one that begins otherwise is its user's.
pub const MARK: &str =
    "[*] tarravane: a view of a dump, which wave writes anew while this line stands";

/// How GTKWave shows a kind of signal: at the right, and in binary or decimal digits.
fn flags(kind: Kind) -> &'static str {
    match kind {
        Kind::Bit | Kind::Pair => "@28",
        Kind::Number => "@24",
        Kind::Text => "@20",
    }
}

/// The name of a signal as GTKWave finds it.
fn name(scope: &Scope, signal: Signal) -> String {
    let range = match signal.kind() {
        Kind::Pair => "[1:0]",
        _ => "",
    };
    format!("{}.{}{range}", scope.name, signal.name())
}

/// The lines of a scope: its name as a heading, and its signals.
fn group(scope: &Scope) -> Vec<String> {
    let mut all = vec!["@200".to_string(), format!("-{}", scope.name)];
    for signal in &scope.signals {
        all.push(flags(signal.kind()).to_string());
        all.push(name(scope, *signal));
    }
    all
}

/// The zoom by which so many ticks are in sight: 2 to the power of -zoom ticks take 200 points, of about 1000, and GTKWave rounds
/// that down to whole powers.
fn zoom(ticks: u64) -> f64 {
    -((ticks as f64 + 1.0) / 5.0).max(1.0).log2().ceil()
}

/// Accesses first and classes last: what moves least is furthest down.
fn rank(scope: &Scope) -> usize {
    let first = ["access", "alerts", "lines", "pings"];
    let at = first.iter().position(|name| *name == scope.name);
    at.unwrap_or(first.len())
}

/// The view of a dump of this name, without its folders.
pub fn text(dump: &str, scopes: &[Scope], ticks: u64) -> String {
    let stem = dump.strip_suffix(".vcd").unwrap_or(dump);
    let marks = " -1".repeat(27);
    let mut all = vec![
        MARK.to_string(),
        format!("[dumpfile] \"{dump}\""),
        format!("[savefile] \"{stem}.gtkw\""),
        "[timestart] 0".to_string(),
        "[size] 1400 900".to_string(),
        "[pos] -1 -1".to_string(),
        format!("*{:.6}{marks}", zoom(ticks)),
        "[signals_width] 260".to_string(),
        "[sst_expanded] 0".to_string(),
    ];
    let mut scopes: Vec<&Scope> = scopes.iter().collect();
    scopes.sort_by_key(|scope| rank(scope));
    all.extend(scopes.into_iter().flat_map(group));
    all.extend(["@200", "-trace", "@20", "trace.END"].map(str::to_string));
    all.join("\n") + "\n"
}

#[cfg(test)]
mod tests {
    use super::zoom;

    #[test]
    fn all_ticks_are_in_sight() {
        assert_eq!(zoom(0), 0.0);
        assert_eq!(zoom(4), 0.0);
        assert_eq!(zoom(39), -3.0);
        assert_eq!(zoom(40), -4.0);
        assert!(zoom(u64::MAX) > -64.0);
    }
}
