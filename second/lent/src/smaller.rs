//! Smaller examples of a difference.

use second::Session;

use crate::stored::Stored;

/// What differs and of which nothing smaller that is tried does.
pub fn smallest<T>(
    mut asked: T,
    smaller: impl Fn(&T) -> Vec<T>,
    mut differs: impl FnMut(&T) -> bool,
) -> T {
    while let Some(fewer) = smaller(&asked).into_iter().find(|fewer| differs(fewer)) {
        asked = fewer;
    }
    asked
}

/// The session fresh, with each one of its tasks left out, or each one of its screens.
pub fn fewer_screens(stored: &Stored) -> Vec<Stored> {
    let session = stored.view();
    if Stored::hold(&session).as_ref() != Some(stored) || session.is_empty() {
        return Vec::new();
    }
    let mut fewer = vec![Session::fresh()];
    for at in 0..session.tasks.len() {
        let mut without = session.clone();
        without.tasks.remove(at);
        without.main = match without.main {
            main if main == at + 1 => 0,
            main if main > at + 1 => main - 1,
            main => main,
        };
        fewer.push(without);
        for place in 0..session.tasks[at].screens.len() {
            let mut without = session.clone();
            without.tasks[at].screens.remove(place);
            fewer.push(without);
        }
    }
    fewer.iter().filter_map(Stored::hold).collect()
}
