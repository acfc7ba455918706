//! Frame files for the program show_field, and its answers beside the published Rust's.
use std::collections::BTreeMap;
use std::fs::{self, File};
use std::io::{self, Read, Write};
use std::path::{Path, PathBuf};
use std::process::{self, Child, Command, Output, Stdio};
use std::{env, thread};

use crate::cases::frame_limits::{self, Stated};
use crate::cases::{frame as cases, sample};
use crate::frame_file::{FrameFile, Problem};
use crate::rng::Rng;
use crate::shown::{Cell, Field, Form, shown};

const PRINTED_DIFFERENCES: u64 = 10;
/// One random file in so many is also shown as a picture; one in so many is changed and run besides.
const PICTURES: u64 = 4;
const CHANGED: u64 = 2;
/// One run in so many reads from a pipe, in pieces.
const PIPES: u64 = 5;
const PIECE: usize = 1_000;

/// The sample's bytes to standard output.
pub fn sample() -> io::Result<()> {
    io::stdout().write_all(&sample::file().bytes())
}

/// The program show_field over the published functions.
pub fn show(words: &[String]) -> io::Result<()> {
    let mut bytes = Vec::new();
    let words: Vec<&str> = words.iter().map(String::as_str).collect();
    let answer = match form(&words) {
        Some(form) => {
            io::stdin().read_to_end(&mut bytes)?;
            shown(&bytes, form)
        }
        None => Err(Problem::Usage),
    };
    match answer {
        Ok(text) => io::stdout().write_all(&text),
        Err(problem) => io::stderr().write_all(problem.line().as_bytes()),
    }
}

fn form(words: &[&str]) -> Option<Form> {
    match words {
        [] | ["text"] => Some(Form::Text),
        ["picture"] => Some(Form::Picture),
        _ => None,
    }
}

/// Writes the random files that `compare` runs with the same seed.
pub fn write(seed: u64, folder: &Path, count: u64) -> io::Result<()> {
    fs::create_dir_all(folder)?;
    let mut rng = Rng::new(seed);
    for n in 1..=count {
        let file = cases::random(rng.word());
        fs::write(folder.join(format!("{n}.frame")), file.bytes())?;
    }
    Ok(())
}

/// What the program answers on every file. Tells whether all agreed.
pub fn compare(seed: u64, program: &str, count: u64) -> io::Result<bool> {
    let mut compare = Compare::new(program)?;
    let all = compare.all(seed, count);
    compare.tidy()?;
    all.map(|()| compare.report())
}

struct Compare {
    program: String,
    /// For the file that is run, and for those that differ.
    folder: PathBuf,
    counts: BTreeMap<String, u64>,
    runs: u64,
    bytes: u64,
    differences: u64,
}

impl Compare {
    fn new(program: &str) -> io::Result<Self> {
        let folder = env::temp_dir().join(format!("frames.{}", process::id()));
        fs::create_dir_all(&folder)?;
        Ok(Self {
            program: program.to_string(),
            folder,
            counts: BTreeMap::new(),
            runs: 0,
            bytes: 0,
            differences: 0,
        })
    }

    fn all(&mut self, seed: u64, count: u64) -> io::Result<()> {
        self.usage()?;
        for stated in frame_limits::all() {
            self.stated(&stated)?;
        }
        let mut rng = Rng::new(seed);
        for n in 1..=count {
            self.random(n, rng.word())?;
        }
        Ok(())
    }

    /// Only files that differ stay.
    fn tidy(&self) -> io::Result<()> {
        if self.differences == 0 {
            return fs::remove_dir_all(&self.folder);
        }
        fs::remove_file(self.folder.join("input"))
    }

    fn usage(&mut self) -> io::Result<()> {
        let file = sample::file().bytes();
        for words in frame_limits::USAGE {
            self.count("refused words");
            self.answer("the sample", words, &file, &Err(Problem::Usage))?;
        }
        Ok(())
    }

    /// The file's problem is stated by hand, and found by reading the file.
    fn stated(&mut self, stated: &Stated) -> io::Result<()> {
        let Stated {
            name,
            bytes,
            problem,
        } = stated;
        match problem {
            Some(problem) => self.problem(*problem),
            None => self.count("frames at a limit or with a trap"),
        }
        for (form, words) in [(Form::Text, &[][..]), (Form::Picture, &["picture"])] {
            let wanted = shown(bytes, form);
            assert_eq!(wanted.as_ref().err(), problem.as_ref(), "{name}");
            self.answer(name, words, bytes, &wanted)?;
        }
        Ok(())
    }

    fn random(&mut self, n: u64, seed: u64) -> io::Result<()> {
        let (name, file) = (format!("random file {n}"), cases::random(seed));
        let bytes = file.bytes();
        let field = FrameFile::read(&bytes).and_then(|file| Field::of(&file));
        let field = field.unwrap_or_else(|problem| panic!("seed {seed}: {problem:?}"));
        self.look(&file, &field);
        let words: &[&str] = if n.is_multiple_of(2) { &[] } else { &["text"] };
        self.answer(&name, words, &bytes, &Ok(field.shown(Form::Text)))?;
        if n.is_multiple_of(PICTURES) {
            self.count("random frames as a picture too");
            self.answer(&name, &["picture"], &bytes, &Ok(field.shown(Form::Picture)))?;
        }
        if n.is_multiple_of(CHANGED) {
            self.changed(n, seed, &file)?;
        }
        Ok(())
    }

    fn changed(&mut self, n: u64, seed: u64, file: &FrameFile) -> io::Result<()> {
        let bytes = cases::changed(&mut Rng::new(!seed), file);
        let wanted = shown(&bytes, Form::Text);
        match wanted {
            Err(problem) => self.problem(problem),
            Ok(_) => self.count("changed files that are shown"),
        }
        self.answer(&format!("changed file {n}"), &[], &bytes, &wanted)
    }

    fn answer(
        &mut self,
        name: &str,
        words: &[&str],
        bytes: &[u8],
        wanted: &Result<Vec<u8>, Problem>,
    ) -> io::Result<()> {
        let got = self.run(words, bytes)?;
        let (out, err) = match wanted {
            Ok(out) => (out.as_slice(), String::new()),
            Err(problem) => (&[][..], problem.line()),
        };
        self.bytes += (out.len() + err.len()) as u64;
        let ended = got.status.code().is_some();
        if ended && got.stdout == out && got.stderr == err.as_bytes() {
            return Ok(());
        }
        self.differences += 1;
        if self.differences > PRINTED_DIFFERENCES {
            return Ok(());
        }
        let kept = self.folder.join(format!("{}.frame", self.differences));
        fs::write(&kept, bytes)?;
        println!("{name} {words:?}, kept as {}:", kept.display());
        println!("  {}", got.status);
        print_difference("output", &got.stdout, out);
        print_difference("error", &got.stderr, err.as_bytes());
        Ok(())
    }

    /// The program's answer, its input a file or now and then a pipe.
    fn run(&mut self, words: &[&str], bytes: &[u8]) -> io::Result<Output> {
        self.runs += 1;
        let mut command = Command::new(&self.program);
        command.args(words);
        command.stdout(Stdio::piped()).stderr(Stdio::piped());
        let named =
            |error: io::Error| io::Error::new(error.kind(), format!("{}: {error}", self.program));
        if self.runs.is_multiple_of(PIPES) {
            let child = command.stdin(Stdio::piped()).spawn();
            return through_pipe(child.map_err(named)?, bytes);
        }
        let input = self.folder.join("input");
        fs::write(&input, bytes)?;
        command.stdin(File::open(input)?).output().map_err(named)
    }

    fn count(&mut self, what: &str) {
        self.add(what, 1);
    }

    fn add(&mut self, what: &str, n: u64) {
        *self.counts.entry(what.to_string()).or_default() += n;
    }

    fn problem(&mut self, problem: Problem) {
        self.count(problem.line().trim_end());
    }

    /// What a random frame has.
    fn look(&mut self, file: &FrameFile, field: &Field) {
        let header = &file.header;
        self.count(&format!("superblock code {}", header.sb128));
        self.count(&format!("step {}", header.tmvp_sample_step));
        let has = [
            ("several tile columns", file.ends.len() > 1),
            ("TIP mode", header.tip_frame_mode != 0),
            ("trajectories on", file.traj != 0),
            ("hole filling on", file.holes != 0),
            ("no planes", file.planes.is_empty()),
            ("a plane is missing", header.rp_ref.contains(&0)),
            (
                "1,000 pixels or more a side",
                header.width.max(header.height) >= 1_000,
            ),
        ];
        for (what, holds) in has {
            self.add(what, u64::from(holds));
        }
        let (mut vectors, mut still, mut empty) = (0, 0, 0);
        for (_, _, cell) in field.cells() {
            match cell {
                Cell::Empty => empty += 1,
                Cell::Vector { y: 0, x: 0, .. } => still += 1,
                Cell::Vector { .. } => vectors += 1,
            }
        }
        self.add("cells: vectors", vectors);
        self.add("cells: still", still);
        self.add("cells: empty", empty);
        self.add("vectors in the field", u64::from(vectors > 0));
    }

    fn report(&self) -> bool {
        for (what, count) in &self.counts {
            println!("{count:>9}  {what}");
        }
        println!(
            "frames: {} runs, {} bytes compared, {} differences",
            self.runs, self.bytes, self.differences
        );
        self.differences == 0
    }
}

/// In pieces, until the program reads no more.
fn through_pipe(mut child: Child, bytes: &[u8]) -> io::Result<Output> {
    let mut input = child.stdin.take().unwrap();
    thread::scope(|scope| {
        scope.spawn(move || {
            bytes
                .chunks(PIECE)
                .all(|piece| input.write_all(piece).is_ok())
        });
        child.wait_with_output()
    })
}

/// From where on the two are not the same.
fn print_difference(name: &str, got: &[u8], wanted: &[u8]) {
    if got == wanted {
        return;
    }
    let alike = got.iter().zip(wanted).take_while(|(a, b)| a == b).count();
    let lines = got[..alike].iter().filter(|&&byte| byte == b'\n').count();
    let part = |bytes: &[u8]| {
        let end = bytes.len().min(alike + 40);
        bytes[alike.saturating_sub(20)..end]
            .escape_ascii()
            .to_string()
    };
    println!(
        "  standard {name}: {} bytes, wanted {}; from byte {alike}, after {lines} lines, \"{}\", wanted \"{}\"",
        got.len(),
        wanted.len(),
        part(got),
        part(wanted)
    );
}
