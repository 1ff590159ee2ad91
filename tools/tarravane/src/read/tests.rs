use super::*;
use handler::registers::MAP;
use handler::{Handler, REGISTERS};

/// The dump of a state.
fn dumped(h: Handler) -> Vec<u8> {
    let mut out = vec![0; DUMP_MOST];
    let length = h.dump(&mut out).bytes().expect("it is written");
    out.truncate(length);
    out
}

/// States of so many alerts: without a stage, with some, with every one.
fn states(n: usize) -> Vec<Handler> {
    let new = Handler::new(n).0;
    let few = |h: Handler, every: usize| {
        let shadowed = |it: &u16| MAP.register(*it).map_or(false, |it| it.is_shadowed());
        let numbers = (0..REGISTERS as u16).filter(shadowed).step_by(every);
        let write = |h: Handler, number| {
            let access = handler::Access::Write(number, 1);
            h.tick(access, handler::Sample::AT_REST).handler
        };
        numbers.fold(h, write)
    };
    vec![new, few(new, 50), few(new, 1)]
}

fn lines(bytes: Vec<u8>) -> Vec<String> {
    let page = page::page(&judged(bytes), false);
    page.lines().map(str::to_string).collect()
}

/// What is said to be missing is never more than is, and no less once N and the number of stages are there.
#[test]
fn the_least_that_is_missing_is_told() {
    for n in [1, 2, 58, 247, 248] {
        for h in states(n) {
            let dump = dumped(h);
            let stages = read_dump(&dump).0.staged().len();
            let head = dump.len() - 6 * stages;
            for length in 0..dump.len() {
                let rest = dump.len() - length;
                let told = match judged(dump[..length].to_vec()).verdict {
                    Verdict::Cut(missing) => missing,
                    _ => panic!("{length} of {} bytes", dump.len()),
                };
                let wanted = match length {
                    0..=4 => 36 - length,
                    _ if length <= head - 2 => head - length,
                    _ if length < head => head + 6 * (stages & !255) - length,
                    _ => rest,
                };
                assert_eq!(told, wanted, "{length} of {}", dump.len());
                assert!(told > 0 && told <= rest);
            }
        }
    }
}

/// So many bytes, and no fewer, make a start of a new handler's dump whole.
#[test]
fn what_is_missing_makes_it_whole() {
    let dump = dumped(Handler::new(1).0);
    for length in 5..dump.len() {
        let whole = [&dump[..length], &vec![0; missing(&dump[..length])]].concat();
        assert_eq!(whole, dump);
    }
    let least = [&b"TDMP"[..], &[0; 32]].concat();
    for length in 0..=4 {
        assert_eq!(missing(&least[..length]), 36 - length);
    }
    assert_eq!(read_dump(&least).1.value(), Ok(0));
}

#[test]
fn no_line_is_wider_than_a_page() {
    for n in [1, 64, 248] {
        for mut h in states(n) {
            for i in (0..n).step_by(2) {
                (h.alerts.cause[i], h.alerts.regwen[i]) = (1, 0);
            }
            h.locals.cause = [1; 7];
            for class in &mut h.classes {
                (class.state, class.count, class.accum) = (7, u32::MAX, 65535);
            }
            for line in lines(dumped(h)) {
                assert!(line.len() <= 100, "{line}");
            }
        }
    }
    for bytes in [vec![], vec![b'T'], vec![0; 4000], b"TDMP\xFF".to_vec()] {
        assert!(lines(bytes).iter().all(|line| line.len() <= 120));
    }
}

#[test]
fn a_part_shows_nothing() {
    let dump = dumped(Handler::new(2).0);
    assert_eq!(
        lines(dump[..10].to_vec()),
        ["cut: the first 10 bytes of a dump; at least 26 bytes more are missing, and nothing is shown of a part"]
    );
    assert_eq!(
        lines(vec![]),
        ["cut: no bytes; at least 36 bytes more are missing, and nothing is shown of a part"]
    );
    let longer = [&dump[..], &[0]].concat();
    assert_eq!(
        lines(longer),
        ["damaged: 37 bytes, no dump and no start of one; nothing of it can be trusted"]
    );
    assert_eq!(
        lines(b"a".to_vec()),
        ["damaged: 1 byte, no dump and no start of one; a dump begins with TDMP; nothing of it can be trusted"]
    );
}
