//! What it costs to write an archive and to look an entry up, beside copying the bytes of all entries to their place.

use super::measure::Program;
use comparison::random::Random;
use gilunavoi::limits::MAX_ENTRIES;
use gilunavoi::raw::archive;
use std::cell::RefCell;
use std::hint::black_box;
use std::rc::Rc;

/// The bytes of all entries together: 11 each where they are the most, and some more in the last one. They are no
/// multiple of 4096: with buffers at such distances copying was seen to be many times slower.
const CONTENTS: usize = 11 * MAX_ENTRIES + 2000;

/// All programs work on the same buffers, so that where these lie makes no difference between them.
struct Archive {
    contents: Vec<u8>,
    lengths: Vec<usize>,
    file: RefCell<Vec<u8>>,
}

impl Archive {
    fn new(random: &mut Random, count: usize) -> Rc<Archive> {
        let mut lengths = vec![CONTENTS / count; count];
        lengths[count - 1] += CONTENTS % count;
        let file = RefCell::new(vec![0; archive::file_length(count, CONTENTS)]);
        let archive = Archive { contents: random.bytes(CONTENTS), lengths, file };
        archive.write();
        Rc::new(archive)
    }

    fn write(&self) {
        let mut file = self.file.borrow_mut();
        let accepted = Ok(file.len() as u64);
        assert_eq!(archive::write(&self.contents, &self.lengths, &mut file), accepted);
    }

    fn copy(&self) {
        let mut file = self.file.borrow_mut();
        let start = file.len() - CONTENTS;
        black_box(&mut file[start..]).copy_from_slice(black_box(&self.contents));
    }

    fn look_up(&self, number: usize) {
        assert!(archive::entry(&self.file.borrow(), black_box(number)).is_ok());
    }
}

/// The programs on one archive, and copying beside them.
pub struct Tasks {
    programs: [(String, Program); 3],
    copying: Program,
}

impl Tasks {
    fn new(random: &mut Random, count: usize) -> Tasks {
        let archive = Archive::new(random, count);
        let [write, first, last, copy] = [0; 4].map(|_| archive.clone());
        Tasks {
            programs: [
                (format!("entries: {count}, write"), Program::new(CONTENTS, move || write.write())),
                ("    look up the first".to_string(), Program::new(CONTENTS, move || first.look_up(0))),
                ("    look up the last".to_string(), Program::new(CONTENTS, move || last.look_up(count - 1))),
            ],
            copying: Program::new(CONTENTS, move || copy.copy()),
        }
    }

    pub fn turn(&mut self) {
        self.copying.turn();
        self.programs.iter_mut().for_each(|(_, program)| program.turn());
    }

    pub fn lines(&self) -> String {
        let copying = self.copying.best();
        let line = |(name, program): &(String, Program)| {
            let (best, times) = (program.best(), program.best() / copying);
            let [best, median, copying] = [best, program.median(), copying].map(|seconds| seconds * 1e6);
            format!("{name:24} {best:9.3} {median:9.3} {copying:9.3} {times:6.2}\n")
        };
        self.programs.iter().map(line).collect()
    }
}

pub fn tasks(random: &mut Random) -> Vec<Tasks> {
    [1, 100, MAX_ENTRIES].map(|count| Tasks::new(random, count)).into()
}

pub fn table(tasks: &[Tasks]) -> String {
    let [best, median, copying, times] = ["us: best", "median", "copying", "times"];
    let lines: String = tasks.iter().map(Tasks::lines).collect();
    format!(
        "archives with {CONTENTS} bytes in their entries: microseconds a call, best and median turn; of copying these\n\
         bytes to their place in the file, best turn, and how many times those the call takes\n\
         {:24} {best:>9} {median:>9} {copying:>9} {times:>6}\n{lines}",
        ""
    )
}
