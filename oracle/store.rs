// The stored cases of the program `cases`: files for each of its layers, the arguments that name them, and what must be
// printed of each.

use super::random::Random;
use std::fmt::{Debug, Display, Write};
use std::fs;
use std::path::PathBuf;

// A layer of the unit, as the program prints it: it has a word, takes files up to some length, refuses some for a reason R,
// and prints the rest.
pub struct Layer<R> {
    pub word: &'static str,
    pub ending: &'static str,
    pub longest: usize,
    pub refusal: fn(&[u8]) -> Option<R>,
    pub print: fn(&[u8]) -> String,
}

pub struct Cases<R> {
    layer: Layer<R>,
    files: Vec<(String, Vec<u8>)>,
}

impl<R: PartialEq + Debug> Cases<R> {
    pub fn add(&mut self, name: &str, bytes: Vec<u8>) {
        let name = format!("{name}.{}", self.layer.ending);
        assert!(self.files.iter().all(|(other, _)| *other != name), "{name} stands twice");
        self.files.push((name, bytes));
    }

    // A file that is refused for this reason, or passes.
    pub fn meets(&mut self, name: &str, refusal: Option<R>, bytes: Vec<u8>) {
        assert!(bytes.len() <= self.layer.longest, "{name}");
        assert_eq!((self.layer.refusal)(&bytes), refusal, "{name}");
        self.add(name, bytes);
    }

    fn printed(&self, bytes: &[u8]) -> String {
        match bytes.len() > self.layer.longest {
            true => "toolong\n".to_string(),
            false => (self.layer.print)(bytes),
        }
    }
}

// What the maker of cases writes: the files, and the arguments, each with what must be printed of it. A word prints nothing.
pub struct Store {
    folder: PathBuf,
    chance: Option<(u64, usize)>,
    arguments: Vec<(String, String)>,
}

impl Store {
    // The maker is called with FOLDER, and writes all stored cases there; or with FOLDER, SEED and COUNT, and writes so many
    // cases by chance for each layer.
    pub fn from_args() -> Store {
        let words: Vec<String> = std::env::args().skip(1).collect();
        let (folder, chance) = match &words[..] {
            [folder] => (folder, None),
            [folder, seed, count] => (folder, Some((seed.parse().unwrap(), count.parse().unwrap()))),
            _ => panic!("usage: FOLDER [SEED COUNT]"),
        };
        Store { folder: folder.into(), chance, arguments: Vec::new() }
    }

    // A layer's cases: all of them, or so many by chance.
    pub fn put<R: PartialEq + Debug>(
        &mut self,
        layer: Layer<R>,
        all: fn(&mut Cases<R>),
        by_chance: fn(&mut Random) -> Vec<u8>,
    ) {
        let mut cases = Cases { layer, files: Vec::new() };
        match self.chance {
            None => all(&mut cases),
            Some((seed, count)) => {
                let mut random = Random::new(seed);
                for i in 0..count {
                    cases.add(&format!("by-chance-{i}"), by_chance(&mut random));
                }
            }
        }
        self.put_files(&cases);
    }

    // The layer's word, then its files, in a folder of their own; two names that can't be read stand last.
    fn put_files<R: PartialEq + Debug>(&mut self, cases: &Cases<R>) {
        let word = cases.layer.word;
        let data = self.folder.join("data").join(word);
        fs::create_dir_all(&data).unwrap();
        self.arguments.push((word.to_string(), String::new()));
        for (name, bytes) in &cases.files {
            fs::write(data.join(name), bytes).unwrap();
            self.put_name(word, name, &cases.printed(bytes));
        }
        self.put_name(word, &format!("no-such.{}", cases.layer.ending), "missing\n");
        self.put_name(word, ".", "missing\n");
        let bytes: usize = cases.files.iter().map(|(_, bytes)| bytes.len()).sum();
        println!("{word}: {} files, {bytes} bytes", cases.files.len());
    }

    fn put_name(&mut self, word: &str, name: &str, printed: &str) {
        self.arguments.push((format!("{word}/{name}"), format!("{word}/{name}\n{printed}")));
    }

    // The last layer's word holds before any word: its first file stands there too.
    pub fn write(mut self) {
        let last = self.arguments.iter().rposition(|(_, printed)| printed.is_empty()).unwrap();
        self.arguments.insert(0, self.arguments[last + 1].clone());
        let args: String = self.arguments.iter().map(|(argument, _)| format!("{argument}\n")).collect();
        let stdout: String = self.arguments.iter().map(|(_, printed)| &printed[..]).collect();
        fs::write(self.folder.join("args"), args).unwrap();
        fs::write(self.folder.join("stdout"), stdout).unwrap();
    }
}

// A word and numbers, one space before each, as a line.
pub fn print_line<T: Display>(out: &mut String, word: &str, fields: &[T]) {
    out.push_str(word);
    for field in fields {
        write!(out, " {field}").unwrap();
    }
    out.push('\n');
}
