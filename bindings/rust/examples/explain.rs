//! What `./milch explain --words` prints of a recording, by this crate alone: reads
//! standard input, writes standard output.

use std::io::{self, Read, Write};

use milchkompass::{Answer, Flags, Reason, Refusal, Session, Table};

/// What is told of a record: its answer, and its reason if it is a start.
struct Told {
    answer: Result<Answer, Refusal>,
    reason: Result<Reason, Refusal>,
}

/// A record that is refused whatever the session is.
fn all_refused(refusal: Refusal) -> Told {
    Told {
        answer: Err(refusal),
        reason: Err(refusal),
    }
}

fn flags_of(word: &[u8]) -> Flags {
    let word = word.try_into().expect("four bytes");
    Flags::from_bits_retain(u32::from_be_bytes(word))
}

/// Makes the call that a record asks for.
fn call(session: &mut Session, record: &[u8]) -> Told {
    let (screen, flags) = (record[1], flags_of(&record[2..]));
    let reason = session.why(screen, flags);
    let answer = match record[0] {
        1 => session.launch_byte(screen),
        2 => session.start(screen, flags),
        3 => session.finish_start(screen, flags),
        4 => session.back(),
        _ => Ok(session.look()),
    };
    Told { answer, reason }
}

/// A record under a table: 9 comes before the table's refusal.
fn tell(session: &mut Result<Session, Refusal>, record: &[u8]) -> Told {
    if record.len() < 6 || !(1..=5).contains(&record[0]) {
        return all_refused(Refusal::BadRecord);
    }
    match session {
        Err(refusal) => all_refused(*refusal),
        Ok(session) => call(session, record),
    }
}

fn line(kind: u8, answer: &Result<Answer, Refusal>) -> String {
    match answer {
        Ok(answer) => format!("{kind} {answer}\n"),
        Err(refusal) => format!("{kind} {} 0 0 0 0 0 0 0 0\n", refusal.number()),
    }
}

fn reason_line(reason: &Result<Reason, Refusal>) -> String {
    match reason {
        Ok(reason) => {
            let (place, by) = reason.found.map_or((0, 0), |f| (f.place, f.by as u8));
            let number = reason.rule.number();
            format!("  0 {number} {place} {by} {}\n", reason.rule)
        }
        Err(refusal) => format!("  {} 0 0 0 {refusal}\n", refusal.number()),
    }
}

/// The recording's table and its records, or none where it begins with no table.
fn parts(recording: &[u8]) -> Option<(&[u8], &[u8])> {
    let screens = usize::from(*recording.first()?);
    let known = (1..=64).contains(&screens) && recording.len() >= 2 + 2 * screens;
    known.then(|| recording.split_at(2 + 2 * screens))
}

fn main() -> io::Result<()> {
    let mut recording = Vec::new();
    io::stdin().read_to_end(&mut recording)?;
    let mut out = io::BufWriter::new(io::stdout().lock());
    let Some((table, records)) = parts(&recording) else {
        return out.write_all(b"0 1 0 0 0 0 0 0 0 0\n");
    };
    let mut session = Table::from_bytes(table).map(Session::new);
    for record in records.chunks(6) {
        let told = tell(&mut session, record);
        out.write_all(line(record[0], &told.answer).as_bytes())?;
        if record[0] == 2 || record[0] == 3 {
            out.write_all(reason_line(&told.reason).as_bytes())?;
        }
    }
    out.flush()
}
