//! Lists of calls with their answers, from a third implementation, played
//! through the C interface. tests/lists/README.md says how they are written.

mod arguments;
mod calls;
mod files;
mod player;
mod state;
mod surveys;

use arguments::Words;
use player::Player;
use std::fs;
use std::path::{Path, PathBuf};

/// Plays one list; answers how many lines with an answer it has.
type Play = fn(&str) -> Result<usize, String>;

/// Every list in a folder and in those within it, in the order of their
/// names, or what cannot be read. A page of words is none.
pub fn find(folder: &Path) -> Result<Vec<PathBuf>, String> {
    let unread = |error| format!("{}: {error}", folder.display());
    let mut paths = Vec::new();
    for entry in fs::read_dir(folder).map_err(unread)? {
        let path = entry.map_err(unread)?.path();
        match path.extension() {
            _ if path.is_dir() => paths.extend(find(&path)?),
            Some(extension) if extension == "md" => {}
            _ => paths.push(path),
        }
    }
    paths.sort();
    Ok(paths)
}

/// Plays the list in a file. One in which nothing is asked has failed.
pub fn play(path: &Path) -> Result<usize, String> {
    let text = fs::read_to_string(path).map_err(|error| error.to_string())?;
    let name = path.file_name().and_then(|name| name.to_str());
    let play: Play = match name.unwrap_or_default() {
        name if name.ends_with(".calls") => play_calls,
        name if name.starts_with("surveys") => |text| each_line(text, surveys::ask),
        name if name.starts_with("files") => |text| each_line(text, files::ask),
        _ => return Err("no kind of list".into()),
    };
    match play(&text)? {
        0 => Err("nothing is asked".into()),
        asked => Ok(asked),
    }
}

/// A list in which every line stands by itself.
fn each_line(text: &str, ask: fn(&mut Words) -> Result<(), String>) -> Result<usize, String> {
    for (line, words) in (1..).zip(text.lines()) {
        let asked = ask(&mut Words::of(words, &Default::default()));
        asked.map_err(|what| format!("line {line}: {what}"))?;
    }
    Ok(text.lines().count())
}

/// A list of calls on a study, and the state that they lead to.
fn play_calls(text: &str) -> Result<usize, String> {
    let mut player = Player::new(text)?;
    let mut lines = (1..).zip(text.lines()).peekable();
    while let Some((number, line)) = lines.next_if(|(_, line)| !line.starts_with('=')) {
        let answer = lines.next_if(|(_, line)| line.starts_with('>'));
        let taken = player.line(line, answer.map(|(_, answer)| answer));
        taken.map_err(|what| format!("line {number}: {what}"))?;
    }
    let state = lines.map(|(_, line)| line);
    state::expect(&mut player, state).map_err(|what| format!("state: {what}"))?;
    Ok(player.asked())
}
