//! The view that stands beside a dump: FILE.gtkw.
use super::vcd::MARK;
use crate::end::End;
use crate::output;
use crate::say::say;
use std::fs;
use std::path::Path;

/// Writes the view beside a dump that is a plain file. One that its user has saved is left.
pub fn write(dump: &str, view: &str) -> Result<(), String> {
    let is_file = |name: &str| fs::metadata(name).map_or(false, |about| about.is_file());
    if !is_file(dump) {
        return Ok(());
    }
    let path = Path::new(dump).with_extension("gtkw");
    let name = path.to_string_lossy().into_owned();
    let ours = fs::read(&path).map(|old| old.starts_with(MARK.as_bytes()));
    if let Ok(false) = ours {
        say(&format!("{name} is not of this tool: it is left as it is"));
        return Ok(());
    }
    output::write(Some(&name), |out| {
        out.write_all(view.as_bytes())?;
        Ok(End::Whole)
    })?;
    Ok(())
}
