//! Judges random texts twice, by the C library of the proved program and by the plain program, and tells where they
//! differ: fuzz MINUTES SEED FOLDER. The script tools/fuzz builds and runs it.
//!
//! Each seed stands for two random runs, of which the second goes on from the picture of the first. Their reports and
//! pictures are judged as they are, and garbled in several ways. A text that the two judge differently is kept as a file in
//! the folder. What the plain program leaves open counts for nothing: which fault of a text that is not of its form is told,
//! and where it stands; and that it wants a member that is there twice to have its form each time. The file `fuzz.seed`
//! there has the seed whose texts are judged, should a judge end the process.

mod chance;
mod garbling;
mod judges;
mod scripts;
mod tokens;

use chance::Chance;
use garbling::garbled;
use judges::{by_library, by_plain, Verb};
use plain::reports;
use scripts::Size;
use std::collections::BTreeMap;
use std::path::{Path, PathBuf};
use std::process::ExitCode;
use std::time::{Duration, Instant};
use tokens::may_have_member_twice;

/// How many garbled texts come of each report, and of each picture.
const GARBLED: usize = 8;

/// So many texts that are judged differently are enough.
const ENOUGH: usize = 10;

struct Fuzz {
    folder: PathBuf,
    judged: u64,
    lawful: u64,
    /// How often each fault was told, by its number and name.
    faults: BTreeMap<String, u64>,
    different: usize,
}

impl Fuzz {
    /// Judges a text of a seed, and keeps it where the judgements differ.
    fn judge(&mut self, verb: Verb, text: &[u8], seed: u64) {
        self.judged += 1;
        let (told, due) = (by_library(verb, text), by_plain(verb, text));
        match told.fault() {
            Some(name) => *self.faults.entry(name).or_default() += 1,
            None => self.lawful += 1,
        }
        let is_open = || due.is_form_fault() && may_have_member_twice(text);
        if !told.agrees_with(&due) && !is_open() {
            self.different += 1;
            let kept = self
                .folder
                .join(format!("fuzz-{seed}-{}.json", self.different));
            std::fs::write(&kept, text).expect("a folder for files");
            println!(
                "fuzz: seed {seed}: {verb}: {told}, and by the plain program {due}; kept in {}",
                kept.display()
            );
        }
    }

    /// Judges a text, and what comes of it.
    fn judge_all(&mut self, verb: Verb, text: &[u8], seed: u64, chance: &mut Chance) {
        self.judge(verb, text, seed);
        for _ in 0..GARBLED {
            self.judge(verb, &garbled(text, chance), seed);
        }
    }

    fn judge_seed(&mut self, seed: u64) {
        std::fs::write(self.folder.join("fuzz.seed"), seed.to_string())
            .expect("a folder for files");
        let mut chance = Chance::new(seed);
        let mut size = Size {
            vertices: 2,
            edges: 1,
        };
        let mut start = String::from("\"seed\"");
        for _ in 0..2 {
            let script = scripts::script(&start, &mut size, &mut chance);
            let run = reports::Script::read(script.as_bytes()).and_then(|script| script.run());
            // a start that is too large for the limits
            let Ok(report) = run else { return };
            let picture = picture_of(&report).to_vec();
            self.judge_all(Verb::Replay, &report, seed, &mut chance);
            self.judge_all(Verb::Check, &picture, seed, &mut chance);
            start = String::from_utf8(picture).expect("digits and names");
        }
    }

    fn line(&self) -> String {
        let Fuzz {
            judged,
            lawful,
            different,
            ..
        } = self;
        let different = if *different == 0 {
            String::from("none")
        } else {
            different.to_string()
        };
        format!("{judged} judgements, {lawful} lawful or true, {different} different")
    }
}

/// The picture of a report, as it stands in it.
fn picture_of(report: &[u8]) -> &[u8] {
    let place = |name: &[u8]| {
        report
            .windows(name.len())
            .position(|bytes| bytes == name)
            .expect("a member of each report")
    };
    let (before, behind) = (b",\"picture\":", b",\"prices\":");
    &report[place(before) + before.len()..place(behind)]
}

fn run(minutes: u64, seed: u64, folder: &Path) -> ExitCode {
    let begun = Instant::now();
    let mut fuzz = Fuzz {
        folder: folder.to_path_buf(),
        judged: 0,
        lawful: 0,
        faults: BTreeMap::new(),
        different: 0,
    };
    let (mut next, mut said) = (seed, 0);
    while begun.elapsed() < Duration::from_secs(60 * minutes) && fuzz.different < ENOUGH {
        fuzz.judge_seed(next);
        next += 1;
        let gone = begun.elapsed().as_secs() / 60;
        if gone > said {
            said = gone;
            println!("fuzz: {gone} minutes, {}", fuzz.line());
        }
    }
    let faults: Vec<String> = fuzz
        .faults
        .iter()
        .map(|(name, count)| format!("{name} {count}"))
        .collect();
    let pace = fuzz.judged / begun.elapsed().as_secs().max(1);
    println!(
        "fuzz: {}; {pace} a second, the next seed is {next}; {}",
        fuzz.line(),
        faults.join(", ")
    );
    ExitCode::from(u8::from(fuzz.different > 0))
}

fn main() -> ExitCode {
    let words: Vec<String> = std::env::args().skip(1).collect();
    if let [minutes, seed, folder] = words.as_slice() {
        if let (Ok(minutes), Ok(seed)) = (minutes.parse(), seed.parse()) {
            return run(minutes, seed, Path::new(folder));
        }
    }
    eprintln!("fuzz: MINUTES and SEED are whole numbers");
    ExitCode::from(2)
}
