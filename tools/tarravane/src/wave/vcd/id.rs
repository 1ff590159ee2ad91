//! The identifier of a signal: letters and digits, so that no reader takes it for anything else.

const DIGITS: &[u8; 62] = b"ABCDEFGHIJKLMNOPQRSTUVWXYZabcdefghijklmnopqrstuvwxyz0123456789";

/// Two numbers never have one identifier.
pub fn id(mut number: usize) -> String {
    let mut id = String::new();
    loop {
        id.push(char::from(DIGITS[number % DIGITS.len()]));
        number /= DIGITS.len();
        if number == 0 {
            return id;
        }
    }
}

#[cfg(test)]
mod tests {
    use super::id;
    use std::collections::HashSet;

    #[test]
    fn each_is_another() {
        let all: HashSet<String> = (0..10_000).map(id).collect();
        assert_eq!(all.len(), 10_000);
        assert_eq!(
            (id(0), id(61), id(62)),
            ("A".into(), "9".into(), "AB".into())
        );
    }
}
