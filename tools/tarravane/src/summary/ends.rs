//! What each class is at the end: its switches, threshold, locks and state.
use crate::facts::settings::{is_enabled, is_lock_set, is_on};
use crate::json::text;
use crate::names::whole_state;
use crate::runs::parts;
use handler::registers::LETTERS;
use handler::{Class, Handler, CLASSES};

#[derive(Default)]
pub struct Ends([Option<Class>; CLASSES]);

fn words(class: &Class) -> String {
    let bit = |on: bool| u8::from(on);
    let (en, lock) = (bit(is_enabled(class)), bit(is_lock_set(class)));
    let locked = match (class.regwen, class.clrwen) {
        (0, 0) => "locked, clear locked",
        (0, _) => "locked",
        (_, 0) => "not locked, clear locked",
        _ => "not locked",
    };
    let count = match class.accum {
        0 => String::new(),
        count => format!(", ACCUM_CNT {count}"),
    };
    let (thresh, state) = (class.thresh, whole_state(class.state));
    let lines = match is_enabled(class) && !is_on(class) {
        true => ", no line enabled",
        false => "",
    };
    format!("EN {en}{lines}, LOCK {lock}, ACCUM_THRESH {thresh}, {locked}; {state}{count}")
}

fn json(class: &Class) -> Vec<(&'static str, String)> {
    vec![
        ("en", is_enabled(class).to_string()),
        ("on", is_on(class).to_string()),
        ("lock", is_lock_set(class).to_string()),
        ("accum_thresh", class.thresh.to_string()),
        ("locked", (class.regwen == 0).to_string()),
        ("clear_locked", (class.clrwen == 0).to_string()),
        ("state", text(whole_state(class.state))),
        ("accum_cnt", class.accum.to_string()),
    ]
}

impl Ends {
    /// What class k is.
    pub fn json(&self, k: usize) -> Vec<(&'static str, String)> {
        self.0[k].as_ref().map(json).unwrap_or_default()
    }

    pub fn set(&mut self, h: &Handler) {
        self.0 = h.classes.map(Some);
    }

    /// Neighbours that are alike share a line.
    pub fn lines(&self) -> Vec<String> {
        let all = self.0.iter().flatten().map(words);
        let all: Vec<(char, String)> = LETTERS.into_iter().zip(all).collect();
        let line = |alike: &[(char, String)]| {
            let es = if alike.len() > 1 { "es" } else { "" };
            let letters: Vec<String> = alike.iter().map(|(k, _)| k.to_string()).collect();
            format!("  class{es} {}: {}", letters.join(", "), alike[0].1)
        };
        let alike = parts(&all, |a, b| a.1 == b.1);
        let title = Some("at the end:".to_string()).filter(|_| !all.is_empty());
        title
            .into_iter()
            .chain(alike.into_iter().map(line))
            .collect()
    }
}
