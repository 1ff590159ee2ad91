//! The wrapper of the installer loses nothing, and the tools' accesses are those of a boot.
use handler::boot::{entries, inputs, BOOT_ALERTS};
use handler::registers::{Field, Setting, MAP};
use handler::{Access, Answer, Handler, Lifecycle, Refusal, Sample, ALERTS, ALERT_NAMES};

fn new(n: usize) -> Handler {
    Handler::new(n).0
}

fn write(h: Handler, number: u16, value: u32) -> Handler {
    h.tick(Access::Write(number, value), Sample::AT_REST)
        .handler
}

#[test]
fn a_lifecycle_goes_by_its_number() {
    for lifecycle in Lifecycle::ALL {
        let given = new(58).install(lifecycle);
        assert!(given.is_whole());
        assert!(given == new(58).install_number(lifecycle.number()));
    }
    for number in 6..=255 {
        let given = new(58).install_number(number);
        assert!(given == new(58).install(Lifecycle::ProdEnd), "{number}");
    }
    let marks = |lifecycle| new(58).install(lifecycle).handler.alerts;
    assert!(marks(Lifecycle::Prod) == marks(Lifecycle::ProdEnd));
    assert!(marks(Lifecycle::Dev) != marks(Lifecycle::Prod));
    assert!(marks(Lifecycle::Rma) == marks(Lifecycle::RawTest));
}

#[test]
fn a_stop_has_its_register_and_its_answer() {
    let booted = new(58).install(Lifecycle::Prod).handler;
    let class_a = write(new(58), MAP.class(0, Setting::Regwen), 0);
    let staged = write(new(58), MAP.alert(Field::Class, 31), 2);
    let broken = Handler { n: 249, ..new(58) };
    for (h, register, refusal) in [
        (booted, 782, Refusal::LOCKED),
        (class_a, 1285, Refusal::LOCKED),
        (staged, 799, Refusal::DIFFERS),
        (new(57), 0, Refusal::FEW_ALERTS),
        (broken, 0, Refusal(7)),
    ] {
        let given = h.install(Lifecycle::Prod);
        assert_eq!(
            (given.register, given.answer.value()),
            (register, Err(refusal))
        );
        assert!(!given.is_whole());
        assert_eq!(given.handler == h, [0, 782].contains(&register));
    }
}

/// Every access is accepted, and they end where the library does.
#[test]
fn the_accesses_of_a_boot_end_in_its_state() {
    assert_eq!((BOOT_ALERTS, ALERT_NAMES.len()), (58, 58));
    for lifecycle in Lifecycle::ALL {
        for n in [58, ALERTS] {
            let after = new(n).install(lifecycle).handler;
            let mut h = new(n);
            for entry in entries(&after) {
                let ticks = inputs(entry);
                assert_eq!(ticks.len(), entry.0.writes() + 1);
                for tick in &ticks {
                    let given = h.tick(tick.access, tick.sample);
                    let reads = matches!(tick.access, Access::Read(_));
                    let wanted = if reads { entry.1 } else { 0 };
                    assert_eq!(given.answer, Answer(wanted.into()), "{}", entry.0);
                    h = given.handler;
                }
            }
            assert!(h == after, "{} {n}", lifecycle.name());
        }
    }
}

/// A line of the table in specs, as document 002 has it: the marks of the six lifecycles, the alert and its name.
fn table_line(line: &str) -> Option<(Vec<char>, usize, &str)> {
    let (row, comment) = line.split_once(" -- ")?;
    let (_, marks) = row.split_once("row ")?;
    let (number, name) = comment.split_once(' ')?;
    let marks = marks.split_whitespace().flat_map(|mark| mark.chars());
    Some((marks.collect(), number.parse().ok()?, name))
}

/// The names are those of the table in specs, and what is installed is what stands there.
#[test]
fn names_and_marks_are_those_of_the_table() {
    let file = concat!(
        env!("CARGO_MANIFEST_DIR"),
        "/../../crates/policy/specs/Table.antt"
    );
    let table = std::fs::read_to_string(file).expect("the table");
    let lines: Vec<_> = table.lines().filter_map(table_line).collect();
    assert_eq!(lines.len(), 58);
    for (at, (marks, number, name)) in lines.iter().enumerate() {
        assert_eq!((*number, *name), (at, ALERT_NAMES[at]));
        for (lifecycle, mark) in Lifecycle::ALL.into_iter().zip(marks) {
            let alerts = new(58).install(lifecycle).handler.alerts;
            let (en, class) = (alerts.en[at], alerts.class[at]);
            let shown = [b'X', b'A' + class][usize::from(en)];
            assert_eq!(char::from(shown), *mark, "{name} in {}", lifecycle.name());
        }
    }
}
