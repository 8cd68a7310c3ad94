//! A folder to work in, and the tool run in it as a person would.
#![allow(dead_code)]

use std::fs;
use std::io::Write;
use std::os::unix::fs::MetadataExt;
use std::os::unix::process::ExitStatusExt;
use std::path::{Path, PathBuf};
use std::process::{Child, Command, Output, Stdio};

/// The tool, or its test build in the tests of that.
pub const TOOL: &str = match (option_env!("CARGO_BIN_EXE_lurdempos"), option_env!("CARGO_BIN_EXE_killable")) {
    (Some(tool), _) | (None, Some(tool)) => tool,
    (None, None) => panic!("cargo sets one of them"),
};

/// A folder that is empty at first and goes at the end.
pub struct Bench(PathBuf);

impl Bench {
    pub fn new(name: &str) -> Bench {
        let folder = Path::new(env!("CARGO_TARGET_TMPDIR")).join(format!("{name}-{}", std::process::id()));
        let _ = fs::remove_dir_all(&folder);
        fs::create_dir_all(&folder).unwrap();
        Bench(folder)
    }

    /// With a small store of 2 tills, 4 versions, images of 16 blocks, 8 records and 64 cells.
    pub fn with_store(name: &str) -> Bench {
        let bench = Bench::new(name);
        let made = bench.run("init s --tills 2 --versions 4 --blocks 16 --records 8 --cells 64");
        made.accepted();
        bench
    }

    pub fn path(&self, name: &str) -> PathBuf {
        self.0.join(name)
    }

    pub fn read(&self, name: &str) -> Vec<u8> {
        fs::read(self.path(name)).unwrap()
    }

    pub fn write(&self, name: &str, bytes: impl AsRef<[u8]>) {
        fs::write(self.path(name), bytes).unwrap();
    }

    /// Its permissions.
    pub fn mode(&self, name: &str) -> u32 {
        fs::metadata(self.path(name)).unwrap().mode() & 0o7777
    }

    /// The names of drafts in the folder.
    pub fn drafts(&self) -> Vec<String> {
        let is_draft = |name: &String| name.ends_with("-new") || name.contains(".lurdempos-draft-");
        self.names().into_iter().filter(is_draft).collect()
    }

    /// The names in the folder.
    pub fn names(&self) -> Vec<String> {
        let mut names: Vec<String> =
            fs::read_dir(&self.0).unwrap().map(|entry| entry.unwrap().file_name().into_string().unwrap()).collect();
        names.sort();
        names
    }

    /// A command of the tool in this folder, its words set apart by spaces.
    pub fn command(&self, line: &str) -> Command {
        let mut command = Command::new(TOOL);
        command.args(line.split_whitespace()).current_dir(&self.0).stdin(Stdio::null());
        command
    }

    pub fn run(&self, line: &str) -> Run {
        Run::of(line, self.command(line).output().unwrap())
    }

    pub fn run_with(&self, line: &str, variable: &str, value: u32) -> Run {
        Run::of(line, self.command(line).env(variable, value.to_string()).output().unwrap())
    }

    /// With these bytes on standard input.
    pub fn fed(&self, line: &str, input: &[u8]) -> Run {
        let mut child = self.spawn(line);
        // The tool may have read enough before the end.
        let _ = child.stdin.take().unwrap().write_all(input);
        Run::of(line, child.wait_with_output().unwrap())
    }

    pub fn spawn(&self, line: &str) -> Child {
        let mut command = self.command(line);
        command.stdin(Stdio::piped()).stdout(Stdio::piped()).stderr(Stdio::piped()).spawn().unwrap()
    }

    /// A line of the shell, with the tool as `lurdempos`.
    pub fn shell(&self, line: &str) -> Run {
        let path = format!("{}:{}", Path::new(TOOL).parent().unwrap().display(), std::env::var("PATH").unwrap());
        let mut command = Command::new("sh");
        command.args(["-c", line]).current_dir(&self.0).env("PATH", path).stdin(Stdio::null());
        Run::of(line, command.output().unwrap())
    }
}

impl Drop for Bench {
    fn drop(&mut self) {
        let _ = fs::remove_dir_all(&self.0);
    }
}

/// How a run ended.
#[derive(Debug)]
pub struct Run {
    pub line: String,
    pub status: Option<i32>,
    pub signal: Option<i32>,
    pub bytes: Vec<u8>,
    pub out: String,
    pub err: String,
}

impl Run {
    pub fn of(line: &str, Output { status, stdout, stderr }: Output) -> Run {
        let (out, err) = (String::from_utf8_lossy(&stdout).into_owned(), String::from_utf8_lossy(&stderr).into_owned());
        assert!(!err.contains("panicked"), "{line}: {err}");
        Run { line: line.into(), status: status.code(), signal: status.signal(), bytes: stdout, out, err }
    }

    /// Status 0 and no word on standard error.
    pub fn accepted(&self) -> &Run {
        assert_eq!((self.status, self.err.as_str()), (Some(0), ""), "{self:?}");
        self
    }

    pub fn says(&self, words: &str) -> &Run {
        assert!(self.out.contains(words), "{words:?} is not in {self:?}");
        self
    }

    /// Another status, no word on standard output, and these words on standard error.
    pub fn fails(&self, status: i32, words: &[&str]) -> &Run {
        assert_eq!((self.status, self.out.as_str()), (Some(status), ""), "{self:?}");
        words.iter().for_each(|words| assert!(self.err.contains(words), "{words:?} is not in {self:?}"));
        assert!(self.err.starts_with("lurdempos: "), "{self:?}");
        self
    }
}

/// Refused with this number and these words, and no file altered.
pub fn refused(bench: &Bench, line: &str, number: u32, words: &[&str]) {
    let files = || -> Vec<(String, Option<Vec<u8>>)> {
        let content = |name: &str| bench.path(name).is_file().then(|| bench.read(name));
        bench.names().into_iter().map(|name| (name.clone(), content(&name))).collect()
    };
    let before = files();
    let run = bench.run(line);
    run.fails(1, &[&format!("lurdempos: refused, {number}: "), "Here: ", "What to do: "]).fails(1, words);
    assert!(files() == before, "{line} altered something");
}

/// An image of blocks, each filled with a letter; a dot is a block of zeros, a hash one of 255s.
pub fn letters(text: &str) -> Vec<u8> {
    let byte = |letter| match letter {
        b'.' => 0,
        b'#' => 255,
        letter => letter,
    };
    text.bytes().flat_map(|letter| [byte(letter); 64]).collect()
}

/// A store's file by docs/FORMAT.md, from its parts.
pub fn file_of(pool: &[u8], table: &[u32]) -> Vec<u8> {
    let mut bytes = body_of(2, pool, table);
    let (head, rest) = bytes.split_at(32);
    let (pool, table) = rest.split_at(pool.len());
    let sums: Vec<u32> = [head].into_iter().chain(pool.chunks(512)).chain(table.chunks(512)).map(crc32c).collect();
    sums.iter().for_each(|sum| bytes.extend(sum.to_le_bytes()));
    bytes
}

/// The same in form 1, without checksums.
pub fn form_1_of(pool: &[u8], table: &[u32]) -> Vec<u8> {
    body_of(1, pool, table)
}

fn body_of(form: u32, pool: &[u8], table: &[u32]) -> Vec<u8> {
    let mut bytes = b"lurdempos\r\n\x1a".to_vec();
    bytes.extend(form.to_le_bytes());
    bytes.extend((pool.len() as u64).to_le_bytes());
    bytes.extend((table.len() as u64).to_le_bytes());
    bytes.extend(pool);
    table.iter().for_each(|word| bytes.extend(word.to_le_bytes()));
    bytes
}

/// CRC-32C, bit by bit.
pub fn crc32c(bytes: &[u8]) -> u32 {
    let bit = |sum: u32, _| if sum & 1 == 1 { sum >> 1 ^ 0x82f6_3b78 } else { sum >> 1 };
    !bytes.iter().fold(!0u32, |sum, &byte| (0..8).fold(sum ^ u32::from(byte), bit))
}

/// What the draft of a file is called.
pub fn draft_of(name: &str) -> String {
    format!("{name}.lurdempos-draft-{:08x}", crc32c(name.as_bytes()))
}

/// A file that an earlier tool has made.
pub fn kept_file(name: &str) -> Vec<u8> {
    fs::read(Path::new(env!("CARGO_MANIFEST_DIR")).join("tests/files").join(name)).unwrap()
}

/// A version that a store holds: its till, its number and its image.
pub type Held = (u32, u32, Vec<u8>);

/// What a salvage has written to a folder: how many images it calls certain, which have to be right, and how many not.
pub fn salvaged(bench: &Bench, folder: &str, held: &[Held]) -> (usize, usize) {
    let (mut certain, mut others) = (0, 0);
    for entry in fs::read_dir(bench.path(folder)).unwrap() {
        let name = entry.unwrap().file_name().into_string().unwrap();
        // Those that are not certain have a word for it in their name.
        match name.split('.').count() {
            _ if name == "report.txt" => {}
            2 => {
                let right = held.iter().find(|(till, version, _)| name == format!("till-{till}-version-{version}.img"));
                let image = right.map(|(.., image)| image);
                let found = bench.read(&format!("{folder}/{name}"));
                assert!(image == Some(&found), "{name} is called certain, and is not");
                certain += 1;
            }
            _ => others += 1,
        }
    }
    (certain, others)
}

/// Damages a store's file in one way after the other and salvages it: the run ends in order, and never alters the file.
/// `look` gets each run and the folder that it was to make.
pub fn salvage_at_random(bench: &Bench, good: &[u8], seed: u64, rounds: usize, mut look: impl FnMut(&Run, &str)) {
    let mut random = Random(seed);
    for n in 0..rounds {
        let bytes = damaged(good, &mut random);
        bench.write("s", &bytes);
        let folder = format!("out{n}");
        let run = bench.run(&format!("salvage s {folder}"));
        assert!(matches!(run.status, Some(0 | 3 | 5)), "{run:?}");
        assert!(bench.read("s") == bytes);
        look(&run, &folder);
        let _ = fs::remove_dir_all(bench.path(&folder));
    }
}

/// Salvages a store's file with one flipped bit in each byte of the head and of the table's header. `look` gets each run,
/// the folder that it has made, and the byte.
pub fn salvage_heads(bench: &Bench, good: &[u8], mut look: impl FnMut(&Run, &str, usize)) {
    for at in (0..32).chain(table_at(good)..table_at(good) + 32) {
        let mut bytes = good.to_vec();
        bytes[at] ^= 4;
        bench.write("s", &bytes);
        let folder = format!("out{at}");
        look(&bench.run(&format!("salvage s {folder}")), &folder, at);
    }
}

/// Where the table begins in a store's file, as its head tells.
fn table_at(file: &[u8]) -> usize {
    32 + u64::from_le_bytes(file[16..24].try_into().unwrap()) as usize
}

/// A file cut, lengthened, overwritten in one part, or with a few flipped bits.
fn damaged(good: &[u8], random: &mut Random) -> Vec<u8> {
    let mut bytes = good.to_vec();
    match random.below(6) {
        0 => bytes.truncate(random.below(good.len())),
        1 => bytes.extend([7; 9]),
        2 => {
            let (from, length) = (random.below(good.len()), 1 + random.below(700));
            bytes.iter_mut().skip(from).take(length).for_each(|byte| *byte = random.next() as u8);
        }
        // The head and the table's header, which tell the capacities.
        3 => {
            let at = [random.below(32), table_at(good) + random.below(32)][random.below(2)];
            bytes[at] ^= 1 << random.below(8);
        }
        _ => (0..1 + random.below(4)).for_each(|_| {
            let at = random.below(good.len());
            bytes[at] ^= 1 << random.below(8);
        }),
    }
    bytes
}

/// Pseudo-random numbers from a seed, the same on every machine.
pub struct Random(pub u64);

impl Random {
    pub fn next(&mut self) -> u64 {
        self.0 = self.0.wrapping_add(0x9e37_79b9_7f4a_7c15);
        let mixed = (self.0 ^ self.0 >> 30).wrapping_mul(0xbf58_476d_1ce4_e5b9);
        let mixed = (mixed ^ mixed >> 27).wrapping_mul(0x94d0_49bb_1331_11eb);
        mixed ^ mixed >> 31
    }

    pub fn below(&mut self, limit: usize) -> usize {
        (self.next() % limit as u64) as usize
    }
}
