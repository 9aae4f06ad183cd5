//! How often each call was made and each refusal and rule came up, in each edition,
//! what the tasks were found by, those of screens of affinity 0 too, how many
//! screens were closed, and how full the sessions were.

use std::fmt;

use second::by_edition::{self, ByEdition, Launches, FOUND};
use second::closings::{self, Closings, Possible};
use second::edition::{EDITIONS, SIX};
use second::no_affinity::NoAffinity;
use second::rules::Choice;
use second::session::{MAX_HEIGHT, MAX_TASKS};
use second::{Reason, Session, Table};

use crate::call::{Call, Kind, Reply};
use crate::no_history::Fronts;
use crate::stored::Stored;

/// The refusals that each call can give, 0 for none.
pub fn possible(kind: Kind) -> &'static [u8] {
    match kind {
        Kind::Launch => &[0, 1, 2, 20, 22, 30],
        Kind::Start | Kind::FinishingStart | Kind::Why => &[0, 1, 2, 20, 3, 4, 21, 23, 24],
        Kind::Back => &[0, 1, 2, 20, 21],
        Kind::Look => &[0, 1, 2, 20],
        Kind::Save => &[0, 1, 2, 20, 8],
        Kind::Restore => &[0, 1, 2, 20, 5, 6, 7],
    }
}

/// The rules under which a start can be refused for want of space.
const FULL: [usize; 8] = [2, 6, 11, 18, 5, 10, 14, 17];

/// What a kind of start can close.
fn possible_closed(kind: Kind) -> Option<Possible> {
    match kind {
        Kind::Start => Some(closings::by_start),
        Kind::FinishingStart => Some(closings::by_finishing_start),
        _ => None,
    }
}

/// Starts, or asking why, by rule, R1 at index 1.
#[derive(Default)]
struct Rules {
    /// Accepted, by edition and what found the task too.
    accepted: ByEdition,
    /// Refused by 23 or 24.
    full: [u64; 19],
}

#[derive(Default)]
pub struct Counts {
    /// Calls by kind and refusal.
    calls: [[u64; 31]; 8],
    /// Accepted calls by kind and edition less 6: a launch's and a restore's is the
    /// one after the call.
    editions: [[u64; 3]; 8],
    launches: Launches,
    /// By kind, those of the kinds that have rules.
    rules: [Rules; 8],
    /// Accepted calls by kind; starts from a No-History front are apart.
    closings: [Closings; 8],
    no_history_starts: Closings,
    fronts: Fronts,
    /// Accepted starts and reasons of screens of affinity 0.
    no_affinity: NoAffinity,
    /// Sessions saved and restored; those with no task; those with no space.
    sessions: u64,
    empty: u64,
    full: u64,
}

impl Counts {
    /// Counts a call by what the second navigator gave.
    pub fn add(&mut self, table: &[u8], present: &Stored, call: Call, reply: &Reply) {
        let (kind, refusal) = (call.kind() as usize, reply.refusal());
        self.calls[kind][usize::from(refusal)] += 1;
        let choice = choice(table, present, call, refusal);
        if let Some(choice) = choice {
            self.rules[kind].add(present, choice, refusal);
        }
        if refusal == 0 {
            self.add_edition(present, call, reply);
        }
        self.fronts.add(table, present, call, reply);
        if let Some(closed) = reply.closed() {
            let rule = choice.map_or(0, |choice| choice.rule as u8);
            let closings = match call {
                Call::Start { .. } if present.no_history == 1 => &mut self.no_history_starts,
                _ => &mut self.closings[kind],
            };
            closings.add(rule, closed);
        }
        if let (Some(choice), 0) = (choice, refusal) {
            self.add_no_affinity(table, present, call, choice);
            self.fronts.add_start(present, call, reply, choice);
        }
    }

    /// Counts the edition of an accepted call.
    fn add_edition(&mut self, present: &Stored, call: Call, reply: &Reply) {
        let edition = match (call, reply) {
            (Call::Launch { .. } | Call::Restore { .. }, Reply::Answer([.., after, _])) => *after,
            _ => present.edition,
        };
        self.editions[call.kind() as usize][usize::from(edition - SIX)] += 1;
        if let Call::Launch { edition } = call {
            self.launches.add(edition);
        }
    }

    /// Counts the start of a screen of affinity 0.
    fn add_no_affinity(&mut self, table: &[u8], present: &Stored, call: Call, choice: Choice) {
        let (Call::Start { screen, .. }
        | Call::FinishingStart { screen, .. }
        | Call::Why { screen, .. }) = call
        else {
            return;
        };
        let table = Table::parse(table).expect("the call was past the table's check");
        let (reason, session) = (Reason::chosen(choice), present.view());
        self.no_affinity.add(&table, screen, reason, &session.tasks);
    }

    pub fn add_session(&mut self, session: &Session) {
        self.sessions += 1;
        self.empty += u64::from(session.is_empty());
        let full = session.tasks.len() == MAX_TASKS
            && session.tasks.iter().all(|task| task.height() == MAX_HEIGHT);
        self.full += u64::from(full);
    }

    /// How many calls of this kind were made.
    pub fn calls(&self, kind: Kind) -> u64 {
        self.calls[kind as usize].iter().sum()
    }

    /// How many calls were made.
    pub fn all_calls(&self) -> u64 {
        Kind::ALL.iter().map(|&kind| self.calls(kind)).sum()
    }

    /// The names of what never came up in calls of these kinds, and of the rules
    /// that did not come up so many times.
    pub fn missing(&self, kinds: &[Kind], each_rule: u64) -> Vec<String> {
        let mut names = Vec::new();
        for &kind in kinds {
            for &refusal in possible(kind) {
                if self.calls[kind as usize][usize::from(refusal)] == 0 {
                    names.push(format!("{refusal} by {}", kind.name()));
                }
            }
            names.extend(self.missing_editions(kind));
            if let Some(rules) = self.rules(kind) {
                names.extend(rules.missing(kind, each_rule));
            }
            if let Some(possible) = possible_closed(kind) {
                names.extend(self.closings[kind as usize].missing(kind.name(), possible));
            }
        }
        if kinds.contains(&Kind::Launch) {
            names.extend(self.launches.missing());
        }
        if kinds.contains(&Kind::Start) {
            names.extend(self.no_history_starts.missing(
                "a start from a No-History front",
                closings::by_no_history_start,
            ));
        }
        names.extend(self.fronts.missing(kinds));
        if kinds.iter().any(|&kind| self.rules(kind).is_some()) {
            names.extend(self.no_affinity.missing());
        }
        if self.empty == 0 && !kinds.is_empty() {
            names.push("an empty session".to_string());
        }
        if self.full == 0 && !kinds.is_empty() {
            names.push("a full session".to_string());
        }
        names
    }

    /// The names of the editions in which a call of this kind was never accepted.
    fn missing_editions(&self, kind: Kind) -> Vec<String> {
        let times = EDITIONS.into_iter().zip(self.editions[kind as usize]);
        times
            .filter(|&(_, times)| times == 0)
            .map(|(edition, _)| format!("edition {edition} by {}", kind.name()))
            .collect()
    }
}

/// What a start chose, or why tells of one; none if the checks before refused it.
fn choice(table: &[u8], present: &Stored, call: Call, refusal: u8) -> Option<Choice> {
    let (Call::Start { screen, flags }
    | Call::FinishingStart { screen, flags }
    | Call::Why { screen, flags }) = call
    else {
        return None;
    };
    if ![0, 23, 24].contains(&refusal) {
        return None;
    }
    let table = Table::parse(table).expect("the call was past the table's check");
    Some(present.view().decide(&table, screen, flags))
}

impl Rules {
    fn add(&mut self, present: &Stored, choice: Choice, refusal: u8) {
        let main = usize::from(present.main);
        match refusal {
            0 => self
                .accepted
                .add(present.edition, main, Reason::chosen(choice)),
            _ => self.full[choice.rule as usize] += 1,
        }
    }

    fn missing(&self, kind: Kind, each_rule: u64) -> Vec<String> {
        let name = kind.name();
        let mut names = self.accepted.missing(name);
        for rule in 1..=18 {
            let times = self.accepted.times(rule);
            if times < each_rule {
                names.push(format!("R{rule} by {name}, {times} of {each_rule} times"));
            }
            if FULL.contains(&rule) && self.full[rule] == 0 {
                names.push(format!("no space under R{rule} by {name}"));
            }
        }
        names
    }
}

impl fmt::Display for Counts {
    fn fmt(&self, f: &mut fmt::Formatter) -> fmt::Result {
        let made = |kind: &Kind| self.calls(*kind) > 0;
        let kinds: Vec<Kind> = Kind::ALL.into_iter().filter(made).collect();
        write!(f, "refusal")?;
        for kind in &kinds {
            write!(f, " {:>15}", kind.name())?;
        }
        writeln!(f)?;
        for refusal in 0..self.calls[0].len() {
            let row: Vec<u64> = kinds
                .iter()
                .map(|&kind| self.calls[kind as usize][refusal])
                .collect();
            if row.iter().any(|&calls| calls > 0) {
                write!(f, "{refusal:<7}")?;
                row.iter().try_for_each(|calls| write!(f, " {calls:>15}"))?;
                writeln!(f)?;
            }
        }
        self.write_closings(f, &kinds)?;
        self.write_editions(f, &kinds)?;
        self.write_rules(f, &kinds)?;
        if kinds.contains(&Kind::Why) {
            self.rules[Kind::Why as usize].write_found(f)?;
        }
        if kinds.contains(&Kind::Start) {
            write!(f, "{}", self.no_affinity)?;
        }
        self.fronts.write(f, &kinds)?;
        writeln!(
            f,
            "{} sessions made, {} of them empty, {} of 16 tasks of 32",
            self.sessions, self.empty, self.full
        )
    }
}

impl Counts {
    /// The counts by rule of a kind that has them.
    fn rules(&self, kind: Kind) -> Option<&Rules> {
        match kind {
            Kind::Start | Kind::FinishingStart | Kind::Why => Some(&self.rules[kind as usize]),
            _ => None,
        }
    }

    /// What those of these kinds closed that have an answer.
    fn write_closings(&self, f: &mut fmt::Formatter, kinds: &[Kind]) -> fmt::Result {
        let answered = kinds.iter().filter(|kind| kind.has_answer());
        let mut columns: Vec<_> = answered
            .map(|&kind| (kind.name(), &self.closings[kind as usize]))
            .collect();
        if kinds.contains(&Kind::Start) {
            columns.push(("from No-History", &self.no_history_starts));
        }
        closings::write(f, &columns)
    }

    /// The accepted calls of these kinds by edition.
    fn write_editions(&self, f: &mut fmt::Formatter, kinds: &[Kind]) -> fmt::Result {
        for edition in EDITIONS {
            write!(f, "in {edition}   ")?;
            for &kind in kinds {
                let calls = self.editions[kind as usize][usize::from(edition - SIX)];
                write!(f, " {calls:>15}")?;
            }
            writeln!(f)?;
        }
        if kinds.contains(&Kind::Launch) {
            write!(f, "{}", self.launches)?;
        }
        Ok(())
    }

    /// The rules of those of these kinds that have them.
    fn write_rules(&self, f: &mut fmt::Formatter, kinds: &[Kind]) -> fmt::Result {
        let rules: Vec<(&str, &Rules)> = kinds
            .iter()
            .filter_map(|&kind| Some((kind.name(), self.rules(kind)?)))
            .collect();
        let columns: Vec<_> = rules
            .iter()
            .map(|(name, rules)| (*name, &rules.accepted))
            .collect();
        if columns.is_empty() {
            return Ok(());
        }
        by_edition::write(f, &columns)?;
        for rule in FULL {
            write!(f, "refused (23, 24) under {:<3}", format!("R{rule}"))?;
            for (name, rules) in &rules {
                write!(f, " {name}: {}", rules.full[rule])?;
            }
            writeln!(f)?;
        }
        Ok(())
    }
}

impl Rules {
    /// The rules by what found the task.
    fn write_found(&self, f: &mut fmt::Formatter) -> fmt::Result {
        let [none, root, affinity] = FOUND;
        writeln!(f, "why: rule, found by{none:>12} {root:>15} {affinity:>15}")?;
        for rule in 1..=18 {
            let name = format!("R{rule}");
            let [none, root, affinity] = self.accepted.found(rule);
            writeln!(f, "{name:<19}{none:>12} {root:>15} {affinity:>15}")?;
        }
        Ok(())
    }
}
