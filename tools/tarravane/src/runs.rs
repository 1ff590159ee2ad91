//! Parts of a list: `slice::chunk_by` is younger than Rust 1.63.

/// The list in parts, each as long as neighbours go together.
pub fn parts<T>(list: &[T], together: impl Fn(&T, &T) -> bool) -> Vec<&[T]> {
    let (mut all, mut rest) = (Vec::new(), list);
    while !rest.is_empty() {
        let apart = |two: &[T]| !together(&two[0], &two[1]);
        let end = rest.windows(2).position(apart);
        let (part, more) = rest.split_at(end.map_or(rest.len(), |at| at + 1));
        all.push(part);
        rest = more;
    }
    all
}

#[cfg(test)]
mod tests {
    use super::parts;

    #[test]
    fn neighbours_stay_together() {
        let next = |a: &u8, b: &u8| a + 1 == *b;
        assert_eq!(parts(&[], next), [&[] as &[u8]; 0]);
        assert_eq!(parts(&[7], next), [[7]]);
        assert_eq!(parts(&[1, 2, 3], next), [[1, 2, 3]]);
        let wanted: [&[u8]; 4] = [&[1, 2], &[4], &[6, 7, 8], &[8]];
        assert_eq!(parts(&[1, 2, 4, 6, 7, 8, 8], next), wanted);
    }
}
