//! Smaller examples of a difference: with records, bytes, tasks or screens left out,
//! as long as the difference stays.

use second::lists;

use lent_calls::smaller::{self, fewer_screens};

use crate::check::{Asked, Ended, Played};

/// What differs and of which nothing smaller that is tried does.
pub fn smallest(asked: Asked, differs: impl Fn(&Asked) -> bool) -> Asked {
    smaller::smallest(asked, smaller, differs)
}

fn smaller(asked: &Asked) -> Vec<Asked> {
    match asked {
        Asked::Play(played) => {
            let played = &**played;
            let lists = shorter(&played.list).into_iter().map(|list| Played {
                list,
                ..played.clone()
            });
            let sessions = fewer_screens(&played.session)
                .into_iter()
                .map(|session| Played {
                    session,
                    ..played.clone()
                });
            let both = lists.chain(sessions);
            both.map(|fewer| Asked::Play(Box::new(fewer))).collect()
        }
        Asked::End(Ended { table, lists }) => {
            let [first, second] = lists;
            let firsts = shorter(first).into_iter().map(|one| [one, second.clone()]);
            let seconds = shorter(second).into_iter().map(|two| [first.clone(), two]);
            let both = firsts.chain(seconds);
            both.map(|lists| {
                Asked::End(Ended {
                    table: table.clone(),
                    lists,
                })
            })
            .collect()
        }
    }
}

/// The list with each one of its records left out, from the last on, and without its
/// last byte.
fn shorter(list: &[u8]) -> Vec<Vec<u8>> {
    let mut without = Vec::new();
    let mut at = 0;
    while at < list.len() {
        let next = at + lists::call_length(&list[at..]);
        without.push([&list[..at], &list[next..]].concat());
        at = next;
    }
    without.reverse();
    without.extend(list.split_last().map(|(_, front)| front.to_vec()));
    without
}
