//! The first lines of a usage: which arguments and options a command takes.
//!
//! ```text
//! usage: ./milch picture FILE --out FILE.html [--force] [--names NAMES]
//! ```
//!
//! A WORD is an argument, `[--option]` and `[--option WORD]` may be left out, and
//! `--option WORD` may not. The script `milch` reads them in the same way.

/// What a command takes.
#[derive(Default)]
pub struct Synopsis<'a> {
    pub wanted: Vec<&'a str>,
    pub options: Vec<Opt<'a>>,
}

/// An option, what stands behind it if anything does, and whether it has to be given.
#[derive(Clone, Copy)]
pub struct Opt<'a> {
    pub name: &'a str,
    pub value: Option<&'a str>,
    pub due: bool,
}

/// Reads a usage up to the first line that neither begins it nor is indented.
pub fn read(usage: &str) -> Synopsis<'_> {
    let lines = usage.lines();
    let lines = lines.take_while(|line| line.starts_with("usage: ") || line.starts_with(' '));
    // Behind 'usage:', the program and the command.
    let mut words = lines.flat_map(str::split_whitespace).skip(3);
    let mut synopsis = Synopsis::default();
    while let Some(word) = words.next() {
        let name = word.trim_start_matches('[');
        if !name.starts_with("--") {
            synopsis.wanted.push(word);
            continue;
        }
        let bare = name.strip_suffix(']');
        synopsis.options.push(Opt {
            name: bare.unwrap_or(name),
            value: match bare {
                Some(_) => None,
                None => words.next().map(|value| value.trim_end_matches(']')),
            },
            due: name == word,
        });
    }
    synopsis
}

#[cfg(test)]
mod tests {
    use super::read;

    #[test]
    fn a_usage() {
        let usage =
            "usage: ./milch a FILE K --out PAGE [--bare]\n       [--from K]\nWords [--no]\n";
        let synopsis = read(usage);
        let options: Vec<_> = synopsis
            .options
            .iter()
            .map(|o| (o.name, o.value, o.due))
            .collect();
        assert_eq!(synopsis.wanted, ["FILE", "K"]);
        let out = ("--out", Some("PAGE"), true);
        let from = ("--from", Some("K"), false);
        assert_eq!(options, [out, ("--bare", None, false), from]);
    }
}
