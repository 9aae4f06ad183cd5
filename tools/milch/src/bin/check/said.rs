//! What a line of `show` says in words, as the numbers of the player's line.

/// The parts of a line of `show`, which is made without names, or with `n0` for 0
/// and so on.
pub struct Line<'a> {
    pub number: u64,
    pub stacks: &'a str,
    rest: Vec<&'a str>,
    /// The player's line.
    pub player: &'a str,
}

/// Takes a line apart: two spaces stand between its parts, and a bar before the
/// player's line.
pub fn parts(line: &str) -> Option<Line<'_>> {
    let (words, player) = line.rsplit_once("  | ")?;
    let mut parts = words
        .split("  ")
        .map(str::trim)
        .filter(|part| !part.is_empty());
    let number = parts.next()?.parse().ok()?;
    let _call = parts.next()?;
    let stacks = parts.next()?;
    let rest = parts.collect();
    Some(Line {
        number,
        stacks,
        rest,
        player,
    })
}

impl Line<'_> {
    /// The nine numbers that the words tell.
    pub fn numbers(&self) -> Option<[u8; 9]> {
        if let Some(refusal) = self.told("refusal ") {
            let (number, _) = refusal.split_once(':')?;
            return Some([number.parse().ok()?, 0, 0, 0, 0, 0, 0, 0, 0]);
        }
        let closed = self.told("closed ").map_or(Some(0), closed)?;
        let edition = self.told("edition ").map_or(Some(8), |n| n.parse().ok())?;
        let mark = u8::from(self.told("no history").is_some());
        if self.stacks == "empty" {
            return Some([0, 0, 0, 0, 0, 0, closed, edition, mark]);
        }
        let tasks: Vec<&str> = self.stacks.split(' ').collect();
        let main = tasks.iter().position(|task| task.starts_with('*'));
        let main = main.map_or(0, |place| place as u8 + 1);
        let (root, screens) = tasks[0].trim_start_matches('*').split_once(":[")?;
        let screens: Vec<&str> = screens.strip_suffix(']')?.split(',').collect();
        let number = |screen: &str| screen.trim_start_matches('n').parse().ok();
        let (screen, root) = (number(screens[0])?, number(root)?);
        let (height, tasks) = (screens.len() as u8, tasks.len() as u8);
        Some([0, screen, root, height, tasks, main, closed, edition, mark])
    }

    fn told(&self, what: &str) -> Option<&str> {
        self.rest.iter().find_map(|part| part.strip_prefix(what))
    }
}

/// How many closed, of 'N: ..' with as many screens behind it.
fn closed(told: &str) -> Option<u8> {
    let (number, screens) = told.split_once(": ")?;
    let number = number.parse().ok()?;
    (screens.split(',').count() == usize::from(number)).then_some(number)
}
