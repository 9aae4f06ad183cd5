//! What the commands take. The texts stand in files, which the script `milch`
//! prints without this program.

/// The help of the whole.
pub const WHOLE: &str = include_str!("usage/whole.txt");

/// The help of a command, if there is one of this name.
pub fn of(command: &str) -> Option<&'static str> {
    Some(match command {
        "show" => include_str!("usage/show.txt"),
        "at" => include_str!("usage/at.txt"),
        "text" => include_str!("usage/text.txt"),
        "bytes" => include_str!("usage/bytes.txt"),
        "diff" => include_str!("usage/diff.txt"),
        "fronts" => include_str!("usage/fronts.txt"),
        "panels" => include_str!("usage/panels.txt"),
        "picture" => include_str!("usage/picture.txt"),
        "chart" => include_str!("usage/chart.txt"),
        _ => return None,
    })
}
