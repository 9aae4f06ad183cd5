//! Text and back.

use std::io::Cursor;

use milch::grammar::bytes_of_file;
use milch::input::Input;
use milch::names::Names;
use milch::output::Output;
use milch::text;

use crate::make;
use crate::random::Random;

/// Writes and reads so many files, good and damaged, in blocks of several lengths,
/// every other one with names.
pub fn check(files: u64, seed: u64) -> Result<String, String> {
    let mut random = Random::new(seed);
    let mut bytes = 0;
    for number in 1..=files {
        let file = file(&mut random);
        let block = random.one_of(&[1, 5, 6, 7, 64, 4096]);
        let names = match number % 2 {
            0 => Names::none(),
            _ => make::names(&file).map_or_else(|| Ok(Names::none()), |text| read(&text))?,
        };
        let text = text_of(&file, block, &names)?;
        match bytes_of_file(&text, &names) {
            Ok(back) if back == file => bytes += file.len(),
            Ok(_) => return Err(format!("file {number} comes back otherwise")),
            Err(wrong) => return Err(format!("the text of file {number}: {wrong}")),
        }
    }
    Ok(format!(
        "text and back: {files} files of {bytes} bytes, half with names"
    ))
}

fn read(text: &str) -> Result<Names, String> {
    Names::read("names", text).map_err(|failure| format!("{failure:?}"))
}

fn text_of(file: &[u8], block: usize, names: &Names) -> Result<Vec<u8>, String> {
    let mut text = Vec::new();
    let from = Box::new(Cursor::new(file.to_vec()));
    let mut input = Input::over("file", from, block);
    let mut out = Output::new(&mut text);
    let written = text::write(&mut input, names, &mut out).and_then(|()| out.finish());
    written.map_err(|failure| format!("{failure:?}"))?;
    Ok(text)
}

/// Any bytes, a recording, or a damaged one.
fn file(random: &mut Random) -> Vec<u8> {
    let length = random.one_of(&[0, 1, 3, 20, 60]);
    match random.below(5) {
        0 => {
            let length = random.below(200);
            random.bytes(length)
        }
        1 => make::recording(random, length),
        2 => make::with_restores(random, length),
        _ => damaged(random, length),
    }
}

fn damaged(random: &mut Random, length: usize) -> Vec<u8> {
    let mut file = make::with_restores(random, length);
    for _ in 0..=random.below(4) {
        let place = random.below(file.len() + 1);
        match random.below(4) {
            0 => file.truncate(place),
            1 => file.insert(place, random.one_of(&[0, 6, 64, 255])),
            _ if place == file.len() => file.push(random.byte()),
            2 => file[place] = random.byte(),
            _ => drop(file.remove(place)),
        }
    }
    file
}
