//! Runs of the program that are stopped, or fail, at one of the calls by which it changes the disk. The program has no part
//! in it: `stop.c` stands between it and the C library.

use crate::folder::Folder;
use std::fs::{self, OpenOptions};
use std::os::unix::fs::OpenOptionsExt;
use std::os::unix::process::CommandExt;
use std::path::PathBuf;
use std::process::{Child, Command, Output, Stdio};

extern "C" {
    fn signal(number: i32, action: usize) -> usize;
}

/// O_TMPFILE on x86-64.
const UNNAMED: i32 = 0o20200000;

/// The library that stops, in a folder of its own.
pub struct Stop(Folder);

/// A run that is over, and the calls that it made.
pub struct Run {
    pub output: Output,
    pub calls: Vec<String>,
}

impl Stop {
    pub fn new(test: &str) -> Stop {
        let folder = Folder::new(&format!("{test}-stop"));
        let source = concat!(env!("CARGO_MANIFEST_DIR"), "/tests/stop/stop.c");
        let mut compiler = Command::new("cc");
        let compiler = compiler.args(["-shared", "-fPIC", "-O1", "-Wall", "-Werror", "-o", "stop.so", source]);
        assert!(compiler.current_dir(&folder.0).status().expect("a C compiler").success());
        let unnamed = OpenOptions::new().write(true).custom_flags(UNNAMED).open(&folder.0);
        assert!(unnamed.is_ok(), "these tests need a TMPDIR on a file system that has files without a name");
        Stop(folder)
    }

    /// Starts the program with the words of a line; `mode` and `at` are those of `stop.c`. It ignores no signal, also where
    /// the tests do, as in the background.
    pub fn start(&self, folder: &Folder, line: &str, mode: &str, at: usize) -> Child {
        const DEFAULT: usize = 0;
        let mut command = folder.command(line);
        // SAFETY: between `fork` and `exec` this makes calls that may be made there, and no others.
        unsafe {
            command.pre_exec(|| {
                for number in [1, 2, 3, 15] {
                    signal(number, DEFAULT);
                }
                Ok(())
            });
        }
        command.envs(self.settings(mode, at)).spawn().expect("the program runs")
    }

    fn settings(&self, mode: &str, at: usize) -> [(&str, String); 4] {
        let [library, trace] = [self.0 .0.join("stop.so"), self.trace()].map(|path| path.display().to_string());
        [("LD_PRELOAD", library), ("STOP_TRACE", trace), ("STOP_MODE", mode.to_string()), ("STOP_AT", at.to_string())]
    }

    fn trace(&self) -> PathBuf {
        self.0 .0.join("trace")
    }

    /// It is made here, since the program may run under a umask that lets nobody write.
    fn clear_trace(&self) {
        fs::write(self.trace(), "").expect("a written file");
    }

    pub fn run(&self, folder: &Folder, line: &str, mode: &str, at: usize) -> Run {
        self.clear_trace();
        self.ended(folder, self.start(folder, line, mode, at))
    }

    /// The same from a line of the shell, in which `"$@"` is the program with its words. The library is loaded into the
    /// program alone.
    pub fn run_in_shell(&self, folder: &Folder, shell: &str, line: &str, mode: &str, at: usize) -> Run {
        self.clear_trace();
        let mut command = Command::new("sh");
        command.args(["-c", shell, "sh", "env"]);
        command.args(self.settings(mode, at).map(|(name, value)| format!("{name}={value}")));
        let program = folder.command(line);
        command.envs(program.get_envs().filter_map(|(name, value)| Some((name, value?))));
        command.arg(program.get_program()).args(program.get_args()).current_dir(&folder.0);
        self.ended(folder, command.stdout(Stdio::piped()).stderr(Stdio::piped()).spawn().expect("a shell"))
    }

    fn ended(&self, folder: &Folder, run: Child) -> Run {
        let part = format!(".{}.part", run.id());
        let output = run.wait_with_output().expect("it ends");
        // Open files have their whole path.
        let here = fs::canonicalize(&folder.0).expect("a path").display().to_string();
        let trace = fs::read_to_string(self.trace()).expect("a trace").replace(&part, ".part");
        let trace = trace.replace(&format!("{here}/"), "").replace(&here, ".");
        Run { output, calls: trace.lines().map(without_number).collect() }
    }
}

/// The system shows a file without a name as a number in its folder.
fn without_number(call: &str) -> String {
    match call.split_once('#') {
        Some((before, number)) => {
            let after = number.trim_start_matches(|digit: char| digit.is_ascii_digit());
            format!("{before}unnamed{}", after.strip_prefix(" (deleted)").unwrap_or(after))
        }
        None => call.to_string(),
    }
}
