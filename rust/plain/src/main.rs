//! The command line: answers recorded calls, checks them, makes new ones.

use std::fs;
use std::io::Write;
use std::path::{Path, PathBuf};
use std::process::ExitCode;

use plain::boundary::{Call, KINDS};
use plain::case::{parse_case, split_cases, Case};
use plain::feed::{answer_line, fits, reopening, shared_source, Changes, Feed};
use plain::make::{random_case, Random};
use plain::parameters::parameter_lines;
use plain::settings::SETTING_SLOTS;
use plain::shapes::{boundary_shapes, header_shapes};
use plain::unfeed::calls_of;

const USAGE: &str = "\
usage: plain answer CASE...            answers the calls of case files or directories
       plain check CASE...             compares the recorded answers with computed ones
       plain make SEED COUNT [DIR]     makes random cases, in a directory or on the output
       plain unfeed INPUT LINE         prints the call of a line of a feed's output
       plain shared                    prints what the proved program shares, as its source
       plain parameters OUTPUT         writes the code parameters around which k changes,
                                       which the proved program of that name must write
       plain feed INPUT OUTPUT WORD...
                                       writes calls as input of the proved program, and the
                                       output that it must write; the words in their order:
  CASE                 adds the cases of a file or directory
  --random SEED COUNT  adds so many random cases that fit
  --headers SEED       adds a look at headers of every shape
  --boundary           adds calls with lists and areas of every length, and odd slots
  what follows these does as they say:
  --calls NAME,NAME    takes only these calls of cases: pack, length, open, look
  --reopen             opens each packed file of a case again
  --flips BYTES        flips each bit of files up to this length
  --cuts BYTES         cuts files up to this length at each length
  --extensions         lengthens files by 1 to 9 bytes
  --most BYTES         leaves out changes that would make the input longer";

fn main() -> ExitCode {
    let arguments: Vec<String> = std::env::args().skip(1).collect();
    let words: Vec<&str> = arguments.iter().map(String::as_str).collect();
    let done = match words.as_slice() {
        ["answer", paths @ ..] if !paths.is_empty() => answer(paths),
        ["check", paths @ ..] if !paths.is_empty() => check(paths),
        ["make", seed, count] => make(seed, count, None),
        ["make", seed, count, directory] => make(seed, count, Some(Path::new(directory))),
        ["unfeed", input, line] => unfeed(input, line),
        ["shared"] => {
            print(&shared_source());
            Ok(true)
        }
        ["parameters", output] => parameters(output),
        ["feed", input, output, words @ ..] => feed(input, output, words),
        _ => Err(USAGE.to_string()),
    };
    match done {
        Ok(true) => ExitCode::SUCCESS,
        Ok(false) => ExitCode::from(1),
        Err(message) => {
            eprintln!("{message}");
            ExitCode::from(2)
        }
    }
}

/// A case as text, with the name to report it by.
struct Named {
    name: String,
    text: String,
}

/// The cases of files, and of the `.case` files of directories in order of name.
fn read_cases(paths: &[&str]) -> Result<Vec<Named>, String> {
    let mut cases = Vec::new();
    for path in paths {
        for file in case_files(Path::new(path))? {
            let text = fs::read_to_string(&file)
                .map_err(|error| format!("{}: {error}", file.display()))?;
            for (index, text) in split_cases(&text).into_iter().enumerate() {
                let name = match index {
                    0 => file.display().to_string(),
                    _ => format!("{}:{index}", file.display()),
                };
                cases.push(Named { name, text });
            }
        }
    }
    Ok(cases)
}

fn case_files(path: &Path) -> Result<Vec<PathBuf>, String> {
    if !path.is_dir() {
        return Ok(vec![path.to_path_buf()]);
    }
    let entries = fs::read_dir(path).map_err(|error| format!("{}: {error}", path.display()))?;
    let mut files: Vec<PathBuf> = entries
        .filter_map(|entry| entry.ok().map(|entry| entry.path()))
        .filter(|file| {
            file.extension()
                .is_some_and(|extension| extension == "case")
        })
        .collect();
    files.sort();
    Ok(files)
}

/// Writes to the output; a reader that went away early is no fault of ours.
fn print(text: &str) {
    let _ = std::io::stdout().write_all(text.as_bytes());
}

fn answer(paths: &[&str]) -> Result<bool, String> {
    let cases = read_cases(paths)?;
    let several = cases.len() > 1;
    for Named { name, text } in cases {
        let (case, _) = parse_case(&text).map_err(|error| format!("{name}: {error}"))?;
        if several {
            print(&format!("case {name}\n"));
        }
        print(&case.answer_text());
    }
    Ok(true)
}

fn check(paths: &[&str]) -> Result<bool, String> {
    let (mut agree, mut differ) = (0, 0);
    for Named { name, text } in read_cases(paths)? {
        let (case, recorded) = parse_case(&text).map_err(|error| format!("{name}: {error}"))?;
        let computed = case.answer_text();
        if computed == recorded {
            agree += 1;
        } else {
            differ += 1;
            print(&format!(
                "case {name} ({}) differs\nrecorded\n{recorded}computed\n{computed}",
                case.note
            ));
        }
    }
    print(&format!("{agree} agree, {differ} differ\n"));
    // No case at all is no agreement.
    Ok(agree > 0 && differ == 0)
}

fn make(seed: &str, count: &str, directory: Option<&Path>) -> Result<bool, String> {
    let seed = seed.parse().map_err(|_| format!("{seed} is no seed"))?;
    let count: usize = count.parse().map_err(|_| format!("{count} is no count"))?;
    let mut random = Random::new(seed);
    if let Some(directory) = directory {
        fs::create_dir_all(directory).map_err(|error| error.to_string())?;
    }
    for index in 0..count {
        let case = random_case(&mut random);
        let text = case.inputs_text() + &case.answer_text();
        match directory {
            Some(directory) => {
                let file = directory.join(format!("{index:04}.case"));
                fs::write(&file, text).map_err(|error| format!("{}: {error}", file.display()))?;
            }
            None => print(&format!("{text}\n")),
        }
    }
    Ok(true)
}

/// A feed, and how what is added next goes into it.
struct Feeding<'a> {
    feed: Feed,
    /// The calls to take of cases; none: all.
    calls: Vec<&'a str>,
    reopen: bool,
    changes: Changes,
    most: usize,
}

impl<'a> Feeding<'a> {
    /// Does what the words ask for, one after the other.
    fn take(&mut self, mut words: &[&'a str]) -> Result<(), String> {
        loop {
            words = match words {
                [] => return Ok(()),
                ["--calls", names, rest @ ..] => {
                    self.calls = call_names(names)?;
                    rest
                }
                ["--flips", bytes, rest @ ..] => {
                    self.changes.flips = number(bytes)?;
                    rest
                }
                ["--cuts", bytes, rest @ ..] => {
                    self.changes.cuts = number(bytes)?;
                    rest
                }
                ["--most", bytes, rest @ ..] => {
                    self.most = number(bytes)?;
                    rest
                }
                ["--random", seed, count, rest @ ..] => {
                    self.add_random(number(seed)?, number(count)?);
                    rest
                }
                ["--headers", seed, rest @ ..] => {
                    self.add_headers(number(seed)?);
                    rest
                }
                [word, rest @ ..] => {
                    self.take_word(word)?;
                    rest
                }
            };
        }
    }

    /// A word without a value, or a path.
    fn take_word(&mut self, word: &str) -> Result<(), String> {
        match word {
            "--reopen" => self.reopen = true,
            "--extensions" => self.changes.extensions = true,
            "--boundary" => {
                for call in boundary_shapes() {
                    self.feed.add(&call);
                }
            }
            option if option.starts_with("--") => return Err(USAGE.to_string()),
            path => self.add_cases(path)?,
        }
        Ok(())
    }

    /// Whether a call of a case is to be taken.
    fn takes(&self, call: &Call) -> bool {
        self.calls.is_empty() || self.calls.contains(&call.name())
    }

    /// Adds a call. A file that it reads, or if asked packs and then opens, is also
    /// changed.
    fn add(&mut self, call: &Call) {
        let is_fed = self.feed.add_changed(call, &self.changes, self.most);
        let opening = if is_fed && self.reopen {
            reopening(call)
        } else {
            None
        };
        if let Some(opening) = opening {
            self.feed.add_changed(&opening, &self.changes, self.most);
        }
    }

    fn add_cases(&mut self, path: &str) -> Result<(), String> {
        for Named { name, text } in read_cases(&[path])? {
            let (case, _) = parse_case(&text).map_err(|error| format!("{name}: {error}"))?;
            let call = Call::from(&case.call);
            if self.takes(&call) {
                self.add(&call);
            }
        }
        Ok(())
    }

    fn add_random(&mut self, seed: u64, count: usize) {
        let mut random = Random::new(seed);
        let mut drawn = std::iter::repeat_with(|| Call::from(&random_case(&mut random).call));
        for _ in 0..count {
            let taken = drawn.find(|call| self.takes(call) && fits(call));
            taken.iter().for_each(|call| self.add(call));
        }
    }

    fn add_headers(&mut self, seed: u64) {
        let settings = SETTING_SLOTS;
        for file in header_shapes(seed) {
            self.add(&Call::Look { file, settings });
        }
    }
}

/// The calls that a list names.
fn call_names(list: &str) -> Result<Vec<&str>, String> {
    let names: Vec<&str> = list.split(',').collect();
    match names.iter().find(|name| !KINDS.contains(name)) {
        Some(name) => Err(format!("there is no call {name}")),
        None => Ok(names),
    }
}

fn number<T: std::str::FromStr>(word: &str) -> Result<T, String> {
    word.parse().map_err(|_| format!("{word} is no number"))
}

fn feed(input: &str, output: &str, words: &[&str]) -> Result<bool, String> {
    let mut feeding = Feeding {
        feed: Feed::default(),
        calls: Vec::new(),
        reopen: false,
        changes: Changes::default(),
        most: usize::MAX,
    };
    feeding.take(words)?;
    let summary = feeding.feed.summary();
    let (bytes, lines) = feeding.feed.finish();
    for (path, contents) in [(input, bytes), (output, lines.into_bytes())] {
        fs::write(path, contents).map_err(|error| format!("{path}: {error}"))?;
    }
    print(&format!("{summary}\n"));
    Ok(true)
}

fn parameters(output: &str) -> Result<bool, String> {
    fs::write(output, parameter_lines()).map_err(|error| format!("{output}: {error}"))?;
    Ok(true)
}

fn unfeed(input: &str, line: &str) -> Result<bool, String> {
    let index: usize = number(line)?;
    let bytes = fs::read(input).map_err(|error| format!("{input}: {error}"))?;
    let calls = calls_of(&bytes).map_err(|error| format!("{input}: {error}"))?;
    let call = index.checked_sub(1).and_then(|index| calls.get(index));
    let call = call.ok_or(format!("{input} has {} calls", calls.len()))?;
    // What is lent another number of settings slots is no case: then in words.
    print(&match call.to_case() {
        Some(call) => {
            let note = format!("line {line}");
            let case = Case { note, call };
            case.inputs_text() + &case.answer_text()
        }
        None => format!("{}\n{}", call.describe(), answer_line(call)),
    });
    Ok(true)
}
