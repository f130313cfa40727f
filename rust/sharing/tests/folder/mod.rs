//! A folder in which the program `sharing` is run as its users run it.

use std::fs;
use std::os::unix::process::ExitStatusExt;
use std::path::PathBuf;
use std::process::{Command, Output, Stdio};
use std::time::Instant;

extern "C" {
    fn kill(process: i32, signal: i32) -> i32;
}

/// The words of a command line that name the former default. Not every test that has a folder needs them.
#[allow(dead_code)]
pub const FORMER_DEFAULT: &str = "--scheme 5,2,1,5,4,3 ";

/// 17 November 2026, in seconds.
pub const DAY: &str = "1794900000";

/// A folder that is removed at the end.
pub struct Folder(pub PathBuf);

impl Folder {
    pub fn new(test: &str) -> Folder {
        let path = std::env::temp_dir().join(format!("sharing-{test}-{}", std::process::id()));
        fs::create_dir(&path).expect("a new folder");
        Folder(path)
    }

    /// The program with the words of a line. What it says is kept. What it writes does not depend on the day.
    pub fn command(&self, line: &str) -> Command {
        let mut command = Command::new(env!("CARGO_BIN_EXE_sharing"));
        command.env("SOURCE_DATE_EPOCH", DAY);
        command.args(line.split(' ')).current_dir(&self.0).stdout(Stdio::piped()).stderr(Stdio::piped());
        command
    }

    fn run(&self, line: &str) -> Output {
        self.command(line).output().expect("the program runs")
    }

    /// What it says where it succeeds. Aside it says nothing, but of an empty message that it is one.
    pub fn says(&self, line: &str) -> String {
        let output = self.run(line);
        let (said, aside) = (text(&output.stdout), text(&output.stderr));
        if said.contains("\nThe message has 0 bytes.\n") {
            assert!(
                aside.starts_with("sharing: the message is empty: ") && aside.lines().count() == 1,
                "{line}: {aside}"
            );
        } else {
            assert_eq!(aside, "", "{line}");
        }
        assert_eq!(output.status.code(), Some(0), "{line}");
        said
    }

    /// What it says where it fails, and that it leaves the folder as it was.
    pub fn fails(&self, line: &str, status: i32) -> String {
        let before = self.names();
        let output = self.run(line);
        assert_eq!(output.status.code(), Some(status), "{line}: {}", text(&output.stderr));
        assert_eq!(text(&output.stdout), "", "{line}");
        assert_eq!(self.names(), before, "{line}: nothing is left behind");
        let said = text(&output.stderr);
        assert!(said.starts_with("sharing: ") && !said.contains("panicked"), "{line}: {said}");
        said
    }

    /// It is refused for the reason that the help has under this number.
    pub fn refuses(&self, line: &str, number: u64, detail: &str) {
        let said = self.fails(line, 1);
        let reason =
            said.lines().next().and_then(|first| first.strip_prefix(&format!("sharing: refused ({number}): ")));
        let reason = reason.unwrap_or_else(|| panic!("{line}: {said}"));
        assert!(self.says("--help").contains(&format!("\n{number:4}  {reason}\n")), "{line}: {said}");
        assert!(said.contains(detail), "{line}: {said}");
    }

    pub fn write(&self, name: &str, length: usize) {
        let bytes: Vec<u8> = (0..length).map(|place| (place * 37 + length) as u8).collect();
        fs::write(self.0.join(name), bytes).expect("a written file");
    }

    /// A file for the first of these parties and copies of it for the others, as words: one file for two is refused.
    #[allow(dead_code)]
    pub fn copies(&self, name: &str, parties: &[usize]) -> String {
        let mut words = format!(" {}={name}", parties[0]);
        for party in &parties[1..] {
            let copy = format!("{name}-copy{party}");
            fs::copy(self.0.join(name), self.0.join(&copy)).expect("a copy");
            words += &format!(" {party}={copy}");
        }
        words
    }

    pub fn bytes(&self, name: &str) -> Vec<u8> {
        fs::read(self.0.join(name)).expect("a file")
    }

    /// All files, also those in folders within.
    pub fn names(&self) -> Vec<PathBuf> {
        let mut names = Vec::new();
        let mut folders = vec![self.0.clone()];
        while let Some(folder) = folders.pop() {
            for entry in fs::read_dir(folder).expect("a folder") {
                let path = entry.expect("an entry").path();
                if path.is_dir() {
                    folders.push(path.clone());
                }
                names.push(path);
            }
        }
        names.sort();
        names
    }

    /// Runs a line of the shell, in which `$0` is the program, that ends in a failure.
    pub fn shell_fails(&self, line: &str, reason: &str) {
        let mut shell = Command::new("sh");
        let shell = shell.args(["-c", line, env!("CARGO_BIN_EXE_sharing")]).current_dir(&self.0);
        let output = shell.output().expect("a shell");
        assert_eq!(output.status.code(), Some(1), "{line}");
        assert!(text(&output.stderr).contains(reason), "{line}: {}", text(&output.stderr));
    }

    pub fn remove(&self, name: &str) {
        let path = self.0.join(name);
        let _ = if path.is_dir() { fs::remove_dir_all(path) } else { fs::remove_file(path) };
    }

    /// Signals at all times of a run of this line: it keeps all that it makes under this name, so many files, and says so,
    /// or it keeps nothing.
    pub fn interrupts(&self, line: &str, made: &str, many: usize, says: &str) {
        let left = self.names();
        let command = || self.command(line).spawn().expect("it runs");
        let start = Instant::now();
        command().wait_with_output().expect("it ends");
        let whole_run = start.elapsed();
        let (mut kept, mut cleared) = (0, 0);
        for round in 0..24 {
            self.remove(made);
            let signal = [1, 2, 15][round as usize % 3];
            let run = command();
            std::thread::sleep(whole_run * round / 20);
            // SAFETY: it reads no memory of this process, and the number is that of a child that was not waited for yet.
            assert_eq!(unsafe { kill(run.id() as i32, signal) }, 0);
            let output = run.wait_with_output().expect("it ends");
            if output.status.success() {
                assert!(text(&output.stdout).contains(says));
                assert_eq!(self.names().len(), left.len() + many);
                kept += 1;
            } else {
                assert_eq!((output.status.signal(), text(&output.stdout)), (Some(signal), String::new()));
                assert_eq!(self.names(), left);
                cleared += text(&output.stderr).contains("interrupted, and nothing is kept") as usize;
            }
        }
        println!("{kept} runs were too fast for the signal, {cleared} removed what they had written");
    }
}

impl Drop for Folder {
    fn drop(&mut self) {
        let _ = fs::remove_dir_all(&self.0);
    }
}

pub fn text(bytes: &[u8]) -> String {
    String::from_utf8(bytes.to_vec()).expect("text")
}
