//! What the ping timer does in a tick.
use crate::facts::tick::Tick;
use crate::facts::timer::{drawn, ping, End};
use handler::Whose;

fn name(of: Whose) -> String {
    match of {
        Whose::Alert(i) => i.to_string(),
        Whose::Line(e) => format!("line {e}"),
    }
}

fn end(end: End) -> &'static str {
    match end {
        End::Answered => "answer",
        End::Failed => "fail",
        End::Unsent => "unsent",
        End::Closed => "closed",
    }
}

/// The words of what is done, and of whom: the open ping, the end of a turn, and the turn that the tick's word sets.
fn said(t: &Tick) -> Vec<(&'static str, String)> {
    let mut all = Vec::new();
    if let Some(ping) = ping(t) {
        let open = ping.open.then_some("ping");
        let words = open.into_iter().chain(ping.end.map(end));
        all.extend(words.map(|words| (words, name(ping.of))));
    }
    let turn = drawn(t).map(|turn| format!("{} in {}", name(turn.of), turn.wait));
    all.extend(turn.map(|turn| ("turn", turn)));
    all
}

/// As ` [ping 4] [answer 4] [turn line 0 in 9]`; nothing where no ping is open and no turn is set.
pub fn list(t: &Tick) -> String {
    let one = |(words, of): (&str, String)| format!(" [{words} {of}]");
    said(t).into_iter().map(one).collect()
}

/// The first letter of each, as ` @pat`, where there is no room.
pub fn short(t: &Tick) -> String {
    let letters: String = said(t).iter().map(|(words, _)| &words[..1]).collect();
    match letters.is_empty() {
        true => letters,
        false => format!(" @{letters}"),
    }
}
