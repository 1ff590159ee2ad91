//! What comes in beside the access: `wires`, `entropy`, `receive` and `sound`, in texts of the edition `pings` `answers`, each
//! at most once, in any order.
use super::word::shown;
use super::{pings, receive, wires};
use crate::runs::parts;
use handler::{Edition, Input, Sample, Wires};

const NAMES: [&str; 5] = ["wires", "entropy", "answers", "receive", "sound"];

/// What the words after an access give.
#[derive(Clone, Copy, Debug, PartialEq, Eq)]
pub struct Beside {
    pub sample: Sample,
    /// The lines that answer their ping, line 0 at the lowest bit.
    pub answers: u32,
    /// The lines whose receivers answer as sound ones do; their pairs are at rest in the sample.
    pub sound: u32,
}

impl Beside {
    const AT_REST: Beside = Beside {
        sample: Sample::AT_REST,
        answers: 0,
        sound: 0,
    };
}

/// What the words after an access give; all that is not named is at rest.
pub fn parse<'a>(edition: Edition, words: impl Iterator<Item = &'a str>) -> Result<Beside, String> {
    let words: Vec<&str> = words.collect();
    let (mut all, mut seen) = (Beside::AT_REST, Vec::new());
    let (mut named, mut sound) = (0, 0);
    for part in parts(&words, |_, next| !NAMES.contains(next)) {
        let (name, rest) = (part[0], &part[1..]);
        if seen.contains(&name) {
            return Err(format!("{name} stands twice"));
        }
        seen.push(name);
        match name {
            "wires" => all.sample.alerts = wires::parse(edition, rest.iter().copied())?,
            "entropy" => all.sample.word = pings::parse_entropy(edition, rest)?,
            "answers" => all.answers = pings::parse_answers(edition, rest)?,
            "receive" => (all.sample.receive, named) = receive::parse(edition, rest)?,
            "sound" => {
                receive::parse_sound(edition, rest)?;
                sound = 15;
            }
            other => return Err(format!("unexpected: {}", shown(other))),
        }
    }
    all.sound = sound & !named;
    Ok(all)
}

/// The words of what comes in, with a space before each; nothing where all is at rest.
pub fn words(input: &Input) -> String {
    let sample = &input.sample;
    let lines = receive::words(sample.receive) + &pings::answers(input.answers);
    wires::words(sample.alerts) + &pings::entropy(sample.word) + &lines
}

/// The words without the entropy, of which most ticks make nothing.
pub fn words_without_entropy(input: &Input) -> String {
    let mut input = *input;
    input.sample.word = 0;
    words(&input)
}

/// The words of what the lines send back.
pub fn words_of_lines(input: &Input) -> String {
    let mut input = *input;
    input.sample.alerts = Wires::REST;
    words_without_entropy(&input)
}

#[cfg(test)]
mod tests {
    use super::*;
    use handler::{Access, LinePairs};

    fn parsed(text: &str) -> Result<Beside, String> {
        parse(Edition::NEWEST, text.split_whitespace())
    }

    fn with(access: Access, beside: Beside) -> Input {
        Input {
            access,
            sample: beside.sample,
            answers: beside.answers,
        }
    }

    #[test]
    fn parts_stand_in_any_order() {
        let text = " wires 0=10 5=11 entropy 0x30002 receive 0=10 3=11";
        let beside = parsed(text).expect("a sample");
        assert_eq!(beside.sample.word, 0x3_0002);
        let pairs = LinePairs {
            pos: 0b1001,
            neg: 0b1110,
        };
        assert_eq!((beside.sample.receive, beside.sound), (pairs, 0));
        let input = with(Access::Nothing, beside);
        assert_eq!(words(&input), text);
        assert_eq!(words_of_lines(&input), " receive 0=10 3=11");
        assert_eq!(
            words_without_entropy(&input),
            " wires 0=10 5=11 receive 0=10 3=11"
        );
        for other in [
            "receive 3=11 0=10 wires 5=11 0=10 entropy 196610",
            "entropy 0x30002 receive 0=10 3=11 wires 0=10 5=11",
        ] {
            assert_eq!(parsed(other), Ok(beside), "{other}");
        }
        assert_eq!(parsed(""), Ok(Beside::AT_REST));
        assert_eq!(words(&with(Access::Nothing, Beside::AT_REST)), "");
    }

    /// A line that `receive` names is as it says.
    #[test]
    fn sound_is_of_the_lines_that_are_not_named() {
        for (text, sound) in [
            ("sound", 15),
            ("sound receive 1=01", 0b1101),
            ("receive 0-2=11 sound wires 0=10", 0b1000),
            ("sound receive 0-3=01", 0),
            ("receive 0=10", 0),
        ] {
            assert_eq!(parsed(text).map(|beside| beside.sound), Ok(sound), "{text}");
        }
    }

    #[test]
    fn the_edition_before_has_answers() {
        let old = |text: &str| parse(Edition::Pings, text.split_whitespace());
        let beside = old("answers 0 3 entropy 2").expect("answers");
        assert_eq!((beside.answers, beside.sample.word), (0b1001, 2));
        let text = words(&with(Access::Nothing, beside));
        assert_eq!(text, " entropy 0x2 answers 0 3");
    }

    #[test]
    fn bad_words_are_told() {
        for (text, problem) in [
            ("none", "unexpected: none"),
            ("2 wires 0=10", "unexpected: 2"),
            ("wires", "wires wants I=PQ or I-J=PQ"),
            ("wires entropy 1", "wires wants I=PQ or I-J=PQ"),
            ("wires 0=10 wires 1=10", "wires stands twice"),
            ("entropy 1 entropy 1", "entropy stands twice"),
            ("entropy 1 none", "unexpected: none"),
            ("receive", "receive wants E=PQ or E-F=PQ"),
            ("sound sound", "sound stands twice"),
            ("sound 1", "unexpected: 1"),
            ("answers 1", "edition wires has no answers"),
        ] {
            assert_eq!(parsed(text), Err(problem.to_string()), "{text}");
        }
    }
}
