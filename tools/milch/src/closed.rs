//! Which screens a record closed: those that stood before it and the one that it
//! opened, less those that stand after it. How many that are, the library says.

/// The screens that closed, in the order of those before.
pub fn screens(
    before: impl Iterator<Item = u8> + Clone,
    after: impl Iterator<Item = u8> + Clone,
    started: u8,
    closed: u8,
) -> Vec<u8> {
    let opens = after.clone().count() + usize::from(closed) > before.clone().count();
    let opened = opens.then_some(started);
    let mut left = [0i16; 256];
    for screen in before.clone().chain(opened) {
        left[usize::from(screen)] += 1;
    }
    for screen in after {
        left[usize::from(screen)] -= 1;
    }
    let mut take = |screen: &u8| {
        let left = &mut left[usize::from(*screen)];
        *left -= 1;
        *left >= 0
    };
    before.chain(opened).filter(|screen| take(screen)).collect()
}

#[cfg(test)]
mod tests {
    fn closed(before: &[u8], after: &[u8], started: u8, closed: u8) -> Vec<u8> {
        let (before, after) = (before.iter().copied(), after.iter().copied());
        super::screens(before, after, started, closed)
    }

    #[test]
    fn what_closed() {
        // Back; a finishing start of the caller's own screen; of another one.
        assert_eq!(closed(&[5, 4, 3], &[4, 3], 0, 1), [5]);
        assert_eq!(closed(&[5, 4], &[5, 4], 5, 1), [5]);
        assert_eq!(closed(&[5, 4], &[6, 4], 6, 1), [5]);
        // Clear to 4; an emptied task, whose 4 comes back; nothing.
        assert_eq!(closed(&[6, 5, 4, 3], &[4, 3], 4, 2), [6, 5]);
        assert_eq!(closed(&[6, 4, 1], &[4, 1], 4, 2), [6, 4]);
        assert_eq!(closed(&[1], &[2, 1], 2, 0), []);
    }
}
