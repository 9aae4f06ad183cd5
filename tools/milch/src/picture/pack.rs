//! The data of the page: what is equal is written once and then named by its number.

use super::data::{Book, Moment, ScreenRow};
use super::follow::Follower;
use crate::names::hides;
use std::collections::HashMap;
use std::hash::Hash;

/// Values numbered from 1 as they first appear; 0 stands for none.
struct Shared<T> {
    numbers: HashMap<T, usize>,
    values: Vec<T>,
}

impl<T: Clone + Eq + Hash> Shared<T> {
    fn new() -> Self {
        Shared {
            numbers: HashMap::new(),
            values: Vec::new(),
        }
    }

    fn number(&mut self, value: T) -> usize {
        if let Some(number) = self.numbers.get(&value) {
            return *number;
        }
        self.values.push(value.clone());
        self.numbers.insert(value, self.values.len());
        self.values.len()
    }
}

/// A task that is followed: its number, its root, and its screens.
type Followed = (u64, u8, Vec<u8>);

struct Pack {
    words: Shared<String>,
    tasks: Shared<Followed>,
    stacks: Shared<Vec<usize>>,
    gone: Shared<Vec<u8>>,
    rows: Vec<[u64; 12]>,
}

/// Adds the book as JSON that may stand inside a script element.
pub fn add_data(book: &Book, page: &mut Vec<u8>) {
    let pack = pack(book);
    let (title, main, part) = (text(&book.title), book.main_screen, book.part);
    let head = format!("{{\"title\":{title},\"main\":{main},\"part\":{part}");
    page.extend_from_slice(head.as_bytes());
    add_list(page, "screens", &book.screens, screen);
    add_list(page, "words", &pack.words.values, |word| text(word));
    add_list(page, "tasks", &pack.tasks.values, |(id, root, screens)| {
        format!("[{id},{root},{}]", numbers(screens))
    });
    add_list(page, "stacks", &pack.stacks.values, |stack| numbers(stack));
    add_list(page, "gone", &pack.gone.values, |screens| numbers(screens));
    add_list(page, "moments", &pack.rows, |row| numbers(row));
    page.push(b'}');
}

fn pack(book: &Book) -> Pack {
    let mut pack = Pack {
        words: Shared::new(),
        tasks: Shared::new(),
        stacks: Shared::new(),
        gone: Shared::new(),
        rows: Vec::with_capacity(book.moments.len()),
    };
    let mut follower = Follower::new(&book.before);
    for moment in &book.moments {
        let row = pack.row(moment, &mut follower);
        pack.rows.push(row);
    }
    pack
}

impl Pack {
    /// Number, call, refusal, reason, closed, stack, main, edition, mark, came, opened, gone.
    fn row<'a>(&mut self, moment: &'a Moment, follower: &mut Follower<'a>) -> [u64; 12] {
        let step = follower.step(moment);
        let followed = moment.tasks.iter().zip(&step.ids);
        let stack: Vec<usize> = followed
            .map(|(task, id)| self.tasks.number((*id, task.root, task.screens.clone())))
            .collect();
        let refusal = moment.refusal.as_deref().map_or(0, |word| self.word(word));
        [
            moment.number,
            self.word(&moment.call) as u64,
            refusal as u64,
            self.word(&moment.reason) as u64,
            moment.closed.into(),
            self.stacks.number(stack) as u64,
            moment.main.into(),
            moment.edition.into(),
            moment.mark.into(),
            step.came as u64,
            step.opened.into(),
            match moment.gone.is_empty() {
                true => 0,
                false => self.gone.number(moment.gone.clone()) as u64,
            },
        ]
    }

    fn word(&mut self, word: &str) -> usize {
        if word.is_empty() {
            0
        } else {
            self.words.number(word.to_owned())
        }
    }
}

fn screen(row: &ScreenRow) -> String {
    format!("[{},{},{}]", text(&row.name), text(&row.mode), row.affinity)
}

fn add_list<T>(page: &mut Vec<u8>, name: &str, list: &[T], each: impl Fn(&T) -> String) {
    page.extend_from_slice(format!(",\n\"{name}\":[").as_bytes());
    for (at, value) in list.iter().enumerate() {
        if at > 0 {
            page.push(b',');
        }
        page.extend_from_slice(each(value).as_bytes());
    }
    page.push(b']');
}

fn numbers<N: ToString>(list: &[N]) -> String {
    let list: Vec<String> = list.iter().map(N::to_string).collect();
    format!("[{}]", list.join(","))
}

/// A JSON string without a character that means something to HTML.
fn text(word: &str) -> String {
    let mut json = String::from("\"");
    for letter in shown(word).chars() {
        match letter {
            '"' | '\\' => json.extend(['\\', letter]),
            '<' | '>' | '&' | '\'' => json.push_str(&format!("\\u{:04x}", letter as u32)),
            _ => json.push(letter),
        }
    }
    json.push('"');
    json
}

/// The same with controls, and what turns the direction of writing, made visible.
pub fn shown(word: &str) -> String {
    word.chars().fold(String::new(), |mut all, letter| {
        if hides(letter) {
            all.push_str(&format!("\\u{{{:x}}}", letter as u32));
        } else {
            all.push(letter);
        }
        all
    })
}
