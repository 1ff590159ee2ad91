//! What made a wave, so that it is the same for every build of a version: no commit, no compiler, no date.
use handler::Edition;

/// The tool's number, which Cargo.toml of the workspace has, and the trace's edition.
pub fn made_by(edition: Edition) -> String {
    let version = env!("CARGO_PKG_VERSION");
    format!("tarravane {version}, edition {}", edition.name())
}
