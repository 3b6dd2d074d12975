//! Commands on the files of a folder, each with what it must answer and write.

use super::answers::{self, Bytes, Outcome, Words};
use super::{iids, rdb};
use crate::library::{looks::LOOKED, piles::STEP, questions::Question};
use crate::making::rng::Rng;
use crate::program::format::{refusal, Refusal};
use crate::program::rdb::{accept, Reading};
use crate::tally::{LINK, NUMBER};
use std::{collections::BTreeMap, collections::HashMap, path::PathBuf};

/// A file's path in the folder, and the word that names it in commands.
#[derive(Clone, Debug)]
pub struct Name {
    pub path: String,
    pub word: String,
}

type What = &'static str;

/// Files by their paths in the folder.
pub type Files = BTreeMap<String, Bytes>;

/// A row of the table, and a place where it has places.
pub type Count = (What, What, Option<u64>);

/// What the files that a command reads must be answered.
type To<'a> = &'a dyn Fn(&[&[u8]]) -> Outcome;

/// What a line on standard error must tell: the refusal that it is of, if any, the files of which it must
/// name one, and what its reason must hold and how it must end.
pub type Told = (Option<Refusal>, Vec<String>, [String; 2]);

#[derive(Default)]
pub struct Step {
    pub words: Words,
    pub outcome: Outcome,
    /// One for a refusal, and one for each report of a salvage.
    pub told: Vec<Told>,
    pub out: Option<String>,
    pub counts: Vec<Count>,
    /// What a command alone gets as standard input.
    pub input: Bytes,
}

impl Step {
    pub fn line(&self) -> Vec<u8> {
        self.words.join(&b' ')
    }
}

/// Two outputs that must be the same in the end, or both absent: the rows of both cases.
type Law = ([What; 2], [Name; 2]);

/// A folder that stands in every folder beside the files.
pub const SUBFOLDER: &str = "sub";

/// The word before the files that has an output written over.
pub const FORCED: &str = "-f";

/// The name of standard input.
pub const INPUT: &str = "-";

/// What stands at an output's path: a symbolic link to a file or to nothing is as a file.
enum Stands {
    Nothing,
    File,
    Folder,
}

/// Longer lines may be refused.
pub const LONGEST_LINE: usize = 65_535;

#[derive(Default)]
pub struct Script {
    pub folder: PathBuf,
    seed: u64,
    pub rng: Rng,
    /// Whether each command is run alone, so that its words may have spaces.
    pub alone: bool,
    /// The files that are there at the start, by path.
    pub files: Files,
    /// Symbolic links at the start: path and target.
    pub links: Vec<(String, PathBuf)>,
    /// Steps of one story keep their order. No story writes what another reads or writes.
    pub stories: Vec<Vec<Step>>,
    pub laws: Vec<Law>,
    /// All files, as the stories told so far leave them.
    now: HashMap<String, Bytes>,
    names: usize,
}

impl Script {
    pub fn new(folder: PathBuf, alone: bool, seed: u64) -> Script {
        let (rng, stories) = (Rng::new(seed), vec![Vec::new()]);
        Script { folder, seed, rng, alone, stories, ..Script::default() }
    }

    /// A file that is there at the start.
    pub fn place(&mut self, bytes: impl Into<Bytes>) -> Name {
        let name = self.name("f");
        self.place_at(&name.path, bytes);
        name
    }

    pub fn place_at(&mut self, path: &str, bytes: impl Into<Bytes>) {
        let bytes = bytes.into();
        self.files.insert(path.to_string(), bytes.clone());
        self.now.insert(path.to_string(), bytes);
    }

    /// A name that no file has, for an output.
    pub fn free(&mut self) -> Name {
        self.name("o")
    }

    pub fn content(&self, file: &Name) -> Option<&Bytes> {
        self.now.get(&file.path)
    }

    fn name(&mut self, stem: &str) -> Name {
        self.names += 1;
        let k = self.names;
        let path = match self.rng.below(12) {
            0 => format!("{SUBFOLDER}/{stem}{k}"),
            1 => format!("{stem}{k}.xpt"),
            2 => format!("{stem}\u{e9}{k}"),
            3 | 4 if self.alone => format!("{stem} {k}"),
            5 if self.alone => format!(" {stem}{k} "),
            _ => format!("{stem}{k}"),
        };
        let word = self.word(&path);
        Name { path, word }
    }

    /// One of the ways to name a file.
    fn word(&mut self, path: &str) -> String {
        let absolute = self.folder.join(path).to_str().map(str::to_string);
        // A program may take outputs under /dev for devices.
        let is_fit =
            |word: &String| (self.alone || !word.contains(' ')) && !word.starts_with("/dev/");
        match (self.rng.below(8), absolute.filter(is_fit)) {
            (0, Some(absolute)) => absolute,
            (1, _) => format!("./{path}"),
            (2, _) => format!("{SUBFOLDER}/../{path}"),
            _ => path.to_string(),
        }
    }

    /// Another word for the same file: another way to it, or a symbolic link.
    pub fn alias(&mut self, file: &Name) -> Name {
        let path = file.path.clone();
        if self.rng.percent(30) {
            let Name { word, .. } = self.symbolic(&path);
            return Name { path, word };
        }
        let mut words = std::iter::repeat_with(|| self.word(&path));
        let word = words.find(|word| *word != file.word).expect("there are other ways");
        Name { path, word }
    }

    /// A symbolic link to this path, under its own.
    pub fn symbolic(&mut self, target: &str) -> Name {
        self.names += 1;
        let path = format!("l{}", self.names);
        self.links.push((path.clone(), self.folder.join(target)));
        Name { word: path.clone(), path }
    }

    /// One of the ways to name the folder that stands beside the files.
    pub fn subfolder(&mut self) -> Name {
        Name { path: SUBFOLDER.to_string(), word: self.word(SUBFOLDER) }
    }

    fn stands(&self, out: &Name) -> Stands {
        let target = self.links.iter().find(|(path, _)| *path == out.path).map(|(_, to)| to);
        match self.content(out) {
            Some(_) => Stands::File,
            None if out.path == SUBFOLDER => Stands::Folder,
            None if target == Some(&self.folder.join(SUBFOLDER)) => Stands::Folder,
            None if target.is_some() => Stands::File,
            None => Stands::Nothing,
        }
    }

    /// What follows is a story of its own.
    pub fn story(&mut self) {
        self.stories.push(Vec::new());
    }

    fn add(&mut self, step: Step) -> &mut Step {
        if let (Some(path), Some(bytes)) = (&step.out, &step.outcome.written) {
            self.now.insert(path.clone(), bytes.clone());
        }
        let story = self.stories.last_mut().expect("there is a story");
        story.push(step);
        story.last_mut().expect("it was just added")
    }

    /// Words that cannot be asked, and the error where it is known to the letter. None of them names
    /// an output.
    pub fn error(&mut self, words: Words, kind: &'static str, text: Option<String>) {
        let outcome = text.map_or(Outcome::error(kind), |text| Outcome::mistake(kind, text));
        let counts = vec![("error", kind, None)];
        self.add(Step { words, outcome, counts, ..Step::default() });
    }

    pub fn law(&mut self, rows: [What; 2], a: &Name, b: &Name) {
        self.laws.push((rows, [a.clone(), b.clone()]));
    }

    /// Another row that the last step counts for.
    pub fn count(&mut self, about: &'static str, what: &'static str) {
        let last = self.stories.last_mut().and_then(|story| story.last_mut());
        last.expect("there is a step").counts.push((about, what, None));
    }

    /// A command, by its first words, with these names, the last of which is the output where it
    /// writes, and more words after them.
    fn command(&mut self, start: &[What], names: &[&Name], more: Words, answer: To) -> &mut Step {
        let command = start[0];
        let writes = matches!(command, "normal" | "link" | "adopt" | "salvage");
        let (files, out) = names.split_at(names.len() - usize::from(writes));
        let names = names.iter().map(|name| name.word.clone().into_bytes());
        let words = start.iter().map(|word| word.as_bytes().to_vec());
        let words = words.chain(names).chain(more).collect();
        let content = |name: &&Name| self.content(name).cloned();
        let reads: Vec<Bytes> = files.iter().filter_map(content).collect();
        let input = files.iter().find(|file| file.word == INPUT).and_then(content);
        let mut outcome = match reads.len() == files.len() {
            true if input.is_some() && !self.alone => answers::input_in_batch(),
            true => answer(&reads.iter().map(|bytes| &bytes[..]).collect::<Vec<_>>()),
            false => Outcome::error("file absent"),
        };
        // What the files themselves give comes first.
        if let (Some(_), Some(out)) = (&outcome.written, out.first()) {
            match self.stands(out) {
                Stands::Folder => outcome = answers::no_ordinary_file(&out.word),
                Stands::File if !start.contains(&FORCED) => outcome = answers::there(&out.word),
                _ => {}
            }
        }
        let mut counts = vec![(command, outcome.what, None)];
        let told = outcome.refusal.map(|(which, refusal)| {
            let number = NUMBER[refusal.number as usize];
            counts.push(("refused", number, Some(refusal.place as u64)));
            let whose = if which == 0 { files } else { &files[which - 1..][..1] };
            // The reason is fixed for what is read as the check reads it.
            let is_read_otherwise = matches!(command, "adopt" | "salvage");
            let own = reads.get(which.wrapping_sub(1)).filter(|_| !is_read_otherwise);
            let reason = own.map_or_else(Default::default, |file| answers::reason(file, refusal));
            (Some(refusal), whose.iter().map(|file| file.word.clone()).collect(), reason)
        });
        let told = told.into_iter().collect();
        let out = out.first().map(|out| out.path.clone());
        let input = input.unwrap_or_default();
        self.add(Step { words, outcome, told, out, counts, input })
    }

    pub fn check(&mut self, file: &Name) {
        self.command(&["check"], &[file], Vec::new(), &|files| answers::checked(files[0]));
    }

    pub fn list(&mut self, file: &Name) {
        self.command(&["list"], &[file], Vec::new(), &|files| answers::listed(files[0]));
    }

    pub fn ask(&mut self, file: &Name, question: &Question) {
        self.ask_by(answers::command(question), file, question);
    }

    /// The table of the interface of a key.
    pub fn table(&mut self, file: &Name, key: &Question) {
        self.ask_by("table", file, key);
    }

    /// The interface of an IID, with the number of entries looked at.
    pub fn looks(&mut self, file: &Name, iid: &Question) {
        self.ask_by("looks", file, iid);
    }

    /// One question, if it can be put so: a line has no spaces inside words, and the words of a
    /// command alone have no zero bytes and are not very long.
    fn ask_by(&mut self, command: What, file: &Name, question: &Question) {
        let question = match question {
            // The word `-` is the default namespace.
            Question::Key(space, name) if space == b"-" => Question::Key(Vec::new(), name.clone()),
            question => question.clone(),
        };
        let words = answers::question_words(&question, &mut self.rng);
        let Some(is_long) = self.is_long(&words) else { return };
        let question = match question {
            Question::Iid(_) => match iids::read(&words[0]) {
                Some(iid) => Question::Iid(iid),
                None => {
                    let words = [command.into(), file.word.clone().into_bytes(), words.concat()];
                    return self.error(words.into(), "IID with a sign amiss", None);
                }
            },
            question => question,
        };
        let alone = self.alone;
        let is_empty = words.iter().any(Vec::is_empty);
        let step = self.ask_so(file, command, words, &question);
        step.counts.extend(spelling(step));
        step.counts.extend(owners(step));
        step.counts.extend(looked(step));
        if is_long || is_empty {
            let what = if is_long { "over 65,535 bytes" } else { "with an empty word" };
            step.counts.push(("line", what, None));
            step.outcome.or_error |= !alone;
        }
    }

    /// Whether these words make a long line, if they can be said.
    fn is_long(&self, words: &Words) -> Option<bool> {
        let cannot = if self.alone { &b"\0"[..] } else { b" \n" };
        let is_long = words.iter().map(Vec::len).sum::<usize>() > LONGEST_LINE - 1_000;
        let can = !words.iter().flatten().any(|byte| cannot.contains(byte));
        (can && !(self.alone && is_long)).then_some(is_long)
    }

    /// A question of a types.rdb, if it can be put so.
    pub fn rdb(&mut self, file: &Name, reading: Reading, question: &rdb::Question) {
        let (command, words) = question.words(&mut self.rng);
        let Some(is_long) = self.is_long(&words) else { return };
        let is_empty = words.iter().any(Vec::is_empty);
        let first = if reading == Reading::Literal { "rdb" } else { "office" };
        let answer = |files: &[&[u8]]| rdb::answered(files[0], reading, question);
        let alone = self.alone;
        let office = self.content(file).is_some_and(|bytes| accept(bytes, Reading::Office).is_ok());
        let step = self.command(&[first, command], &[file], words, &answer);
        step.counts.push((question.row(), step.outcome.what, None));
        step.counts.extend(question.sizes(&step.outcome));
        if reading == Reading::Literal && office && !step.told.is_empty() {
            let names = ["xpt office".to_string(), String::new()];
            step.told.push((None, vec![file.word.clone()], names));
        }
        step.outcome.or_error |= !alone && (is_long || is_empty);
    }

    /// One question in these words after the file's.
    pub fn ask_so(&mut self, file: &Name, command: What, words: Words, q: &Question) -> &mut Step {
        self.command(&[command], &[file], words, &|files| answers::asked(command, files[0], q))
    }

    /// Normalises one file or links two or more, and names the output last; `order` counts where a pair is
    /// linked both ways. The papers leave open what a refused file with one that can't be read
    /// gives.
    pub fn write(&mut self, names: &[&Name], order: Option<What>, forced: bool) {
        let (command, answer): (_, To) = match names.len() {
            2 => ("normal", &answers::normal),
            _ => ("link", &answers::linked),
        };
        let step = self.write_by(command, names, forced, answer);
        if names.len() > 3 {
            step.counts.push(("pile", step.outcome.what, None));
            step.counts.extend(last_step(step).map(|step| ("pile", step, None)));
        }
        if let (Some(order), Some((Some(why), ..))) = (order, step.told.first()) {
            if !refusal::is_of_file(why.number) {
                step.counts.push((LINK[why.number as usize], order, Some(why.place as u64)));
            }
        }
    }

    /// A command that writes, with the output last, and what becomes of that.
    fn write_by(&mut self, command: What, names: &[&Name], forced: bool, answer: To) -> &mut Step {
        let stood = self.stands(names[names.len() - 1]);
        let start = &[command, FORCED][..1 + usize::from(forced)];
        let step = self.command(start, names, Vec::new(), answer);
        let what = match (step.outcome.written.is_some(), stood) {
            (true, Stands::Nothing) => "output made",
            (true, _) => "output replaced",
            (false, Stands::Nothing) => "output still absent",
            (false, _) => "output kept",
        };
        step.counts.push((command, what, None));
        if what == "output made" && !forced {
            step.counts.push((command, "output made without -f", None));
        }
        step
    }

    /// With `-f` or now and then without.
    pub fn adopt(&mut self, file: &Name, out: &Name) {
        let forced = self.forced();
        self.write_by("adopt", &[file, out], forced, &answers::adopted);
    }

    /// With `-f` or now and then without.
    pub fn normal(&mut self, file: &Name, out: &Name) {
        let forced = self.forced();
        self.write(&[file, out], None, forced);
    }

    pub fn link(&mut self, first: &Name, second: &Name, out: &Name) {
        let forced = self.forced();
        self.write(&[first, second, out], None, forced);
    }

    /// Likewise.
    pub fn salvage(&mut self, file: &Name, out: &Name) {
        let forced = self.forced();
        let step = self.write_by("salvage", &[file, out], forced, &answers::salvaged);
        let text = step.outcome.text.clone().unwrap_or_default();
        for line in String::from_utf8_lossy(&text).lines().skip(1) {
            let numbers: Vec<usize> =
                line.split(' ').filter_map(|word| word.parse().ok()).collect();
            let [_, number, place] = numbers[..] else { continue };
            let why = Refusal { number: number as u32, place };
            step.told.push((Some(why), vec![file.word.clone()], Default::default()));
            step.counts.push(("salvaged", NUMBER[number], Some(place as u64)));
        }
    }

    /// Whether an output is forced.
    pub fn forced(&mut self) -> bool {
        self.rng.percent(75)
    }

    /// All steps. Few or many stories are mixed at a time, so that what a program keeps of a file
    /// is asked for soon and late.
    pub fn merged(&self) -> Vec<&Step> {
        let rng = &mut Rng::new(self.seed);
        let mut stories: Vec<&[Step]> = self.stories.iter().map(|story| &story[..]).collect();
        rng.shuffle(&mut stories);
        let mut steps = Vec::new();
        while !stories.is_empty() {
            let width = *rng.pick(&[1, 1, 2, 3, 8, 30, 100, 300]);
            let mixed = stories.split_off(stories.len().saturating_sub(width));
            mix(&mixed, rng, &mut steps);
        }
        steps
    }
}

/// How a question is spelled that has an answer.
fn spelling(step: &Step) -> Option<Count> {
    let text = step.outcome.text.as_ref()?;
    let [command, _, word, ..] = &step.words[..] else { return None };
    let is_found = text.starts_with(b"found ");
    let what = match &command[..] {
        _ if text.starts_with(b"refused ") => return None,
        b"iid" if is_found && word[0] == b'{' => "IID in braces",
        b"iid" if is_found && word.contains(&b'-') => "IID with hyphens",
        b"iid" if is_found && word.iter().any(u8::is_ascii_uppercase) => "IID in upper case",
        b"iid" if is_found && word.iter().any(u8::is_ascii_lowercase) => "IID in lower case",
        b"key" if is_found && word == b"-" => "default namespace",
        b"key" if is_found => "a namespace",
        b"method" | b"slot" | b"const" if word[0] == b'0' => "index with leading zeros",
        b"slot" if step.words[3][0] == b'0' && step.words[3].len() > 1 => "slot with leading zeros",
        _ => return None,
    };
    Some(("spelled", what, None))
}

/// From how many interfaces a table has its methods.
fn owners(step: &Step) -> Option<Count> {
    let text = step.outcome.text.as_ref().filter(|_| step.words[0] == b"table")?;
    let lines = text.split(|byte| *byte == b'\n').map(|line| line.split(|byte| *byte == b' '));
    let lines = lines.map(|line| line.collect::<Vec<_>>()).filter(|words| words.len() == 6);
    let mut owners: Vec<_> = lines.map(|words| [words[1], words[2]]).collect();
    owners.dedup();
    let what = match owners.len() {
        0 if text.is_empty() => "of no method",
        0 => return None,
        1 => "from one interface",
        2..8 => "from two or more interfaces",
        _ => "from eight or more interfaces",
    };
    Some(("table", what, None))
}

/// The link at which a pile was refused.
fn last_step(step: &Step) -> Option<What> {
    let text = std::str::from_utf8(step.outcome.text.as_ref()?).ok()?;
    let (_, number) = text.split_once(" step ")?;
    Some(STEP[number.parse::<usize>().ok()?.min(STEP.len() - 1)])
}

/// How many entries were looked at.
fn looked(step: &Step) -> Option<Count> {
    let text = step.outcome.text.as_ref().filter(|_| step.words[0] == b"looks")?;
    let (_, number) = std::str::from_utf8(text).ok()?.split_once(" looked ")?;
    Some(("looks", LOOKED[number.parse::<usize>().ok()?], None))
}

/// Takes steps from these stories by chance, each story's in order.
fn mix<'s>(stories: &[&'s [Step]], rng: &mut Rng, steps: &mut Vec<&'s Step>) {
    let lengths = stories.iter().map(|story| story.len()).enumerate();
    let mut turns: Vec<usize> = lengths.flat_map(|(i, length)| vec![i; length]).collect();
    rng.shuffle(&mut turns);
    let mut rest: Vec<_> = stories.iter().map(|story| story.iter()).collect();
    steps.extend(turns.into_iter().filter_map(|i| rest[i].next()));
}
