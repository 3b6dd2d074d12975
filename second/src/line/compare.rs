//! Runs a script's commands by the program that is compared, in a batch or each alone, and holds
//! what comes of them against what must come.

use super::process::{self, Ran};
use super::script::{Files, Script, Step, Told, SUBFOLDER};
use crate::program::format::{refusal::is_of_file, Refusal};
use crate::tally::{Came, Tally};
use std::{fs, io, path::Path};

/// So much of a text is told.
const SHOWN: usize = 600;

/// What differs at a command, and the bytes that show it.
fn difference(what: &str, step: Option<&Step>, shown: &[(&str, Option<&[u8]>)]) -> io::Error {
    let line = step.map(Step::line);
    let mut text = format!("DIFFERENCE: {what}");
    for (name, bytes) in [("command", line.as_deref())].iter().chain(shown) {
        let start = bytes.map(|bytes| bytes[..bytes.len().min(SHOWN)].escape_ascii());
        text.extend(start.map(|start| format!("\n  {name}: {start}")));
    }
    io::Error::other(text)
}

/// Every file of the folder by its path, without symbolic links.
fn found(folder: &Path, under: &str) -> io::Result<Files> {
    let mut files = Files::new();
    for entry in fs::read_dir(folder)? {
        let entry = entry?;
        let path = format!("{under}{}", entry.file_name().to_string_lossy());
        let kind = entry.file_type()?;
        if kind.is_dir() {
            files.extend(found(&entry.path(), &format!("{path}/"))?);
        } else if kind.is_file() {
            files.insert(path, fs::read(entry.path())?.into());
        }
    }
    Ok(files)
}

/// That the folder has just these files; `steps` are those before.
fn folder_stands(folder: &Path, files: &Files, steps: &[&Step]) -> io::Result<()> {
    let found = found(folder, "")?;
    let must = |path: &String| files.get(path).map(|bytes| &bytes[..]);
    let is = |path: &String| found.get(path).map(|bytes| &bytes[..]);
    let Some(path) = files.keys().chain(found.keys()).find(|path| must(path) != is(path)) else {
        return Ok(());
    };
    let about = |step: &&&Step| step.out.as_ref() == Some(path);
    let step = steps.iter().rfind(about).or(steps.last()).copied();
    let shown = [("expected", must(path)), ("found", is(path))];
    Err(difference(&format!("a file is otherwise: {path}"), step, &shown))
}

/// The laws of linking, on the files that were written.
fn laws_hold(script: &Script, tally: &mut Tally) -> io::Result<()> {
    for ([same, absent], files) in &script.laws {
        let [left, right] = files.each_ref().map(|name| fs::read(script.folder.join(&name.path)));
        match (left.ok(), right.ok()) {
            (Some(left), Some(right)) if left == right => tally.add("law", same),
            (None, None) => tally.add("law", absent),
            (left, right) => {
                let shown = [("left", left.as_deref()), ("right", right.as_deref())];
                return Err(difference(&format!("a law does not hold: {same}"), None, &shown));
            }
        }
    }
    Ok(())
}

/// Whether a line tells the refusal's number and names the file; of a file's own also the byte, and
/// of its reason what is fixed.
pub fn tells(line: &[u8], (refusal, files, [held, end]): &Told) -> bool {
    let line = String::from_utf8_lossy(line.strip_suffix(b"\n").unwrap_or(line));
    if !files.iter().any(|file| line.contains(file)) {
        return false;
    }
    let mut names: Vec<&String> = files.iter().collect();
    names.sort_by_key(|name| std::cmp::Reverse(name.len()));
    let bare = names.iter().fold(line.into_owned(), |line, name| line.replace(*name, " "));
    let has = |number: usize| {
        let is = |word: &str| word.trim_matches(|c: char| c.is_ascii_punctuation()).to_string();
        bare.split_whitespace().any(|word| is(word) == number.to_string())
    };
    let is_of = |refusal: &Refusal| {
        has(refusal.number as usize) && (!is_of_file(refusal.number) || has(refusal.place))
    };
    refusal.as_ref().is_none_or(is_of) && bare.contains(held) && bare.ends_with(end)
}

/// How the errors begin that are about a command's words as a whole.
const OF_WORDS: [&[u8]; 4] =
    [b"the words are: ", b"unknown command", b"no command", b"a link takes at most"];

/// What follows such an error of a command alone.
const HINT: &[u8] = b"xpt: `xpt help` shows the commands and their words\n";

/// Whether standard error goes on with what belongs to this line of standard output: for an error
/// its text, of a question after the file's name; for a refusal why.
pub fn is_told<'t>(
    line: &[u8],
    refusals: &[Told],
    alone: bool,
    told: &mut impl Iterator<Item = &'t [u8]>,
) -> bool {
    let Some(error) = line.strip_prefix(b"error ") else {
        let mut is_why =
            |refusal| told.next().is_some_and(|line| line.ends_with(b"\n") && tells(line, refusal));
        return refusals.iter().all(&mut is_why);
    };
    let is_of_words = OF_WORDS.iter().any(|start| error.starts_with(start));
    let own = told.next().and_then(|line| line.strip_prefix(b"xpt: ")?.strip_suffix(b"\n"));
    let before = own.and_then(|own| own.strip_suffix(error));
    before.is_some_and(|before| before.is_empty() || !is_of_words && before.ends_with(b": "))
        && (!is_of_words || !alone || told.next() == Some(HINT))
}

/// That every step is answered as it must be, in order, and no more is printed: on standard error
/// what belongs to every refusal and every error.
fn answers_stand(steps: &[&Step], ran: &Ran, alone: bool, tally: &mut Tally) -> io::Result<()> {
    let mut printed = &ran.stdout[..];
    let mut told = ran.stderr.split_inclusive(|byte| *byte == b'\n').peekable();
    for step in steps {
        let Some((line, rest)) = step.outcome.eat(printed, alone) else {
            let line = printed.split(|byte| *byte == b'\n').next();
            let ended = ran.broken.as_ref().map(|how| how.as_bytes());
            let expected = step.outcome.text.as_deref();
            let shown = [("expected", expected), ("answered", line), ("ended", ended)];
            return Err(difference("answered otherwise", Some(step), &shown));
        };
        printed = rest;
        let next = told.peek().copied();
        if !is_told(line, &step.told, alone, &mut told) {
            let shown = [("answered", Some(line)), ("stderr", next), ("then", told.next())];
            return Err(difference("standard error tells otherwise", Some(step), &shown));
        }
        if line.starts_with(b"error ") {
            tally.add("all", "errors on standard error");
        } else if !step.told.is_empty() {
            tally.add("all", "refusals on standard error");
        }
    }
    let more = told.next();
    let what = match &ran.broken {
        Some(how) => how,
        None if !printed.is_empty() => "more answers than commands",
        None if more.is_some() => "standard error has more lines",
        None => return Ok(()),
    };
    let shown = [("stderr", more), ("more", Some(printed))];
    Err(difference(what, steps.last().copied(), &shown))
}

/// The steps' lines. The last one has no newline where it can be seen without.
fn input(steps: &[&Step], tally: &mut Tally) -> Vec<u8> {
    let mut input: Vec<u8> = steps.iter().flat_map(|s| [s.line(), vec![b'\n']].concat()).collect();
    if !steps.len().is_multiple_of(2) && !input.ends_with(b"\n\n") {
        input.pop();
        tally.add("line", "last without a newline");
    }
    input
}

/// Runs the script's commands: in one batch, or each alone but for those with words that a process
/// cannot be given.
pub fn run(program: &Path, script: &Script, tally: &mut Tally) -> io::Result<()> {
    fs::create_dir_all(script.folder.join(SUBFOLDER))?;
    for (path, bytes) in &script.files {
        fs::write(script.folder.join(path), bytes)?;
    }
    for (path, target) in &script.links {
        std::os::unix::fs::symlink(target, script.folder.join(path))?;
    }
    let mut files = script.files.clone();
    let mut steps = script.merged();
    steps.retain(|step| !script.alone || !step.words.iter().flatten().any(|byte| *byte == 0));
    let at_once = if script.alone { 1 } else { steps.len() };
    for steps in steps.chunks(at_once) {
        let (words, input) = match script.alone {
            true => (steps[0].words.clone(), steps[0].input.to_vec()),
            false => (vec![b"batch".to_vec()], input(steps, tally)),
        };
        let ran = process::run(program, &script.folder, &words, &input)?;
        answers_stand(steps, &ran, script.alone, tally)?;
        for step in steps {
            if let (Some(path), Some(bytes)) = (&step.out, &step.outcome.written) {
                files.insert(path.clone(), bytes.clone());
            }
            count(script, step, tally);
        }
        folder_stands(&script.folder, &files, steps)?;
    }
    laws_hold(script, tally)
}

fn count(script: &Script, step: &Step, tally: &mut Tally) {
    for &(about, what, place) in &step.counts {
        tally.came(about, what, Came { place, ..Came::default() });
    }
    tally.add("all", if script.alone { "commands alone" } else { "commands in batches" });
    if script.alone && step.words.iter().any(|word| word.contains(&b' ')) {
        tally.add("line", "a word with a space");
    }
}
