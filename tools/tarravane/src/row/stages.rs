//! The stages that are open after a tick.
use super::Form;
use crate::facts::stages::open;
use crate::names;
use handler::registers::Naming;
use handler::Handler;

/// How many are open, as ` [2 staged]`, in short form that some are, as ` *`; nothing where none is.
pub fn count(h: &Handler, form: Form) -> String {
    match (open(h).len(), form) {
        (0, _) => String::new(),
        (_, Form::Short) => " *".to_string(),
        (number, _) => format!(" [{number} staged]"),
    }
}

/// Each with its value.
pub fn list(naming: Naming, h: &Handler) -> String {
    let one = |(register, value)| {
        let value = names::value(Some(register), value);
        format!("{} {value}", naming.name(register))
    };
    match open(h) {
        all if all.is_empty() => String::new(),
        all => format!(
            " [staged: {}]",
            all.into_iter().map(one).collect::<Vec<_>>().join(", ")
        ),
    }
}
