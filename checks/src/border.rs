//! Document 01, "Border".

/// The place that index `i` of a line of `n` means: reflected about 0 and about n−1, without repeating the edge, until it
/// lies inside; for n = 1 every index means 0.
pub fn reflect(n: usize, i: i64) -> usize {
    assert!(n >= 1);
    if n == 1 {
        return 0;
    }
    let last = n as i64 - 1;
    let mut i = i;
    loop {
        if i < 0 {
            i = -i;
        } else if i > last {
            i = last - (i - last);
        } else {
            return i as usize;
        }
    }
}

#[cfg(test)]
mod tests {
    use super::reflect;

    #[test]
    fn the_documents_examples() {
        assert_eq!([reflect(4, -1), reflect(4, -2), reflect(4, 4)], [1, 2, 2]);
        assert_eq!([reflect(2, -2), reflect(2, 3)], [0, 1]);
        assert_eq!([reflect(1, -5), reflect(1, 0), reflect(1, 9)], [0, 0, 0]);
    }

    #[test]
    fn parity_is_kept_from_two_places_on() {
        for n in 2..=9 {
            for i in -40..40 {
                assert_eq!(reflect(n, i) % 2, i.rem_euclid(2) as usize, "{n} {i}");
            }
        }
    }
}
