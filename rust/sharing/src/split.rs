//! The command `split`, with keys from a pool or from a file for this one message.

use crate::about::{self, About};
use crate::arguments::{paths, usage, Arguments};
use crate::failure::{Done, Failure};
use crate::files::{read, Input, Output};
use crate::form::Form;
use crate::pool::{check_no_pool, Pool, KEYS};
use crate::report::{counted, note};
use crate::scheme::Scheme;
use crate::standard::{check_folder, check_once};
use crate::{date, digest, mix_ups};
use gilunavoi::raw::{self, KeyPool};
use gilunavoi::Lengths;
use std::ffi::{OsStr, OsString};
use std::path::{Path, PathBuf};

pub fn run(arguments: &Arguments) -> Done {
    match arguments.option("--pool") {
        None => with_key_file(arguments),
        Some(pool) => from_pool(arguments, pool),
    }
}

fn with_key_file(arguments: &Arguments) -> Done {
    let [message, keys, folder] = paths(&arguments.words, ["MESSAGE", "KEYS", "FOLDER"])?;
    check_folder(&folder, "FOLDER")?;
    check_once([&message, &keys].map(PathBuf::as_path))?;
    check_no_pool(&keys)?;
    let splitting = Splitting::new(arguments, message, &keys)?;
    let shares = splitting.shares(&read(keys)?)?;
    let mut output = Output::in_folder(&folder, splitting.names())?;
    output.write(&splitting.files(&shares))?;
    output.keep(&splitting.report(&folder))?;
    splitting.note_if_empty();
    Ok(())
}

/// The order of these steps is what a pool is for: a failure before the keys are marked as used leaves all as it was, and
/// nothing of a share is on the disk until their record is safe and they are overwritten.
fn from_pool(arguments: &Arguments, pool: &OsStr) -> Done {
    if arguments.words.len() == 3 {
        return usage("with --pool there are no KEYS: needed are MESSAGE, FOLDER".to_string());
    }
    if pool.is_empty() {
        return usage("--pool needs the folder of a pool".to_string());
    }
    check_folder(pool.as_ref(), "POOL")?;
    let [message, folder] = paths(&arguments.words, ["MESSAGE", "FOLDER"])?;
    check_folder(&folder, "FOLDER")?;
    let splitting = Splitting::new(arguments, message, &Path::new(pool).join(KEYS))?;
    let mut pool = Pool::to_use(pool.as_ref())?;
    pool.make_ready()?;
    // A name that is taken, or a folder that cannot be written in, is seen before keys are used for it.
    let mut output = Output::in_folder(&folder, splitting.names())?;
    output.try_to_write()?;
    let (shares, record) = splitting.shares_from(&pool)?;
    let used = record.position - pool.record().position;
    pool.mark_used(record)?;
    let told = format!("{}{}.\n", splitting.report(&folder), pool.told(&format!("{used} used for this message")));
    let kept = pool.settle().and_then(|()| output.write(&splitting.files(&shares))).and_then(|()| output.keep(&told));
    kept.map_err(|failure| Failure::Besides(Box::new(failure), pool.told(&format!("{used} used all the same"))))?;
    splitting.note_if_empty();
    Ok(())
}

/// A message that is to be split, and how.
struct Splitting {
    /// The scheme, the form and what else its readers are told, and the file that tells it.
    about: About,
    about_file: String,
    message: Input,
    /// What is split: the message, and its check where one is wanted.
    contents: Vec<u8>,
    lengths: Lengths,
}

impl Splitting {
    fn new(arguments: &Arguments, message: PathBuf, keys: &Path) -> Result<Splitting, Failure> {
        let (checked, label, date) = (arguments.flag("--checked"), about::label_of(arguments)?, date::today()?);
        let scheme = Scheme::of(arguments)?;
        scheme.check()?;
        mix_ups::check_keys(&message, keys)?;
        let message = read(message)?;
        let contents = if checked { digest::with_check(&message.bytes)? } else { message.bytes.clone() };
        let unpadded = arguments.flag("--unpadded");
        let lengths = scheme.lengths(unpadded, contents.len());
        let lengths = lengths.map_err(|number| Failure::Refused(number, too_long(&message, checked)))?;
        let form = if unpadded { Form::Told(contents.len()) } else { Form::Padded };
        let about = About { scheme, form, checked, date, label };
        Ok(Splitting { about_file: about.to_string(), about, message, contents, lengths })
    }

    fn is_unpadded(&self) -> bool {
        matches!(self.about.form, Form::Told(_))
    }

    /// The shares, party after party.
    fn shares(&self, keys: &Input) -> Result<Vec<u8>, Failure> {
        let mut shares = vec![0; self.lengths.output];
        let Scheme { n, r, z, ref counts, .. } = self.about.scheme;
        let split = if self.is_unpadded() { raw::split } else { raw::split_padded };
        let answer = split(n, r, z, counts, &self.contents, &keys.bytes, &mut shares);
        answer.map_err(|number| match number {
            8 => self.other_keys_needed(8, keys.to_string()),
            _ => Failure::Refused(number, self.message.to_string()),
        })?;
        Ok(shares)
    }

    /// The same with the next keys of a pool, and the record that follows.
    fn shares_from(&self, pool: &Pool) -> Result<(Vec<u8>, KeyPool), Failure> {
        let (mut shares, mut record) = (vec![0; self.lengths.output], pool.record());
        let Scheme { n, r, z, ref counts, .. } = self.about.scheme;
        let split = if self.is_unpadded() { raw::split_from_pool } else { raw::split_padded_from_pool };
        let answer = split(&mut record, n, r, z, counts, &self.contents, &pool.keys.bytes, &mut shares);
        answer.map_err(|number| match number {
            16 if pool.fits() => self.other_keys_needed(16, format!("{:?} has {} left", pool.folder, pool.left())),
            16 => pool.misfit(),
            _ => Failure::Refused(number, self.message.to_string()),
        })?;
        Ok((shares, record))
    }

    /// The refusal of keys that are too few, or other than so many.
    fn other_keys_needed(&self, number: u64, given: String) -> Failure {
        let (needed, used) = (counted(self.lengths.keys, "byte"), self.about.scheme.used());
        Failure::Refused(number, format!("it needs {needed}, and {given}\nthe scheme is {used}"))
    }

    fn names(&self) -> Vec<OsString> {
        let shares = (1..=self.about.scheme.n).map(|party| OsString::from(format!("share-{party}")));
        shares.chain([OsString::from(about::NAME)]).collect()
    }

    /// What stands under each of the names.
    fn files<'a>(&'a self, shares: &'a [u8]) -> Vec<&'a [u8]> {
        let part = |party: usize| &shares[party * self.lengths.share..][..self.lengths.share];
        (0..self.about.scheme.n as usize).map(part).chain([self.about_file.as_bytes()]).collect()
    }

    fn report(&self, folder: &Path) -> String {
        let scheme = &self.about.scheme;
        let (n, bytes, used) = (scheme.n, counted(self.lengths.share, "byte"), scheme.used());
        let mut told = format!("{n} shares of {bytes} are in {folder:?}, share-1 to share-{n}.\n");
        // Who destroys the message after this can see here that all of it was there.
        told += &format!("The message has {}.\nThe scheme is {used}.\n", counted(self.message.bytes.len(), "byte"));
        if self.about.checked {
            told += &format!("A check of {} bytes is split with the message: ", digest::LENGTH);
            told += "reconstruct with --about, or --checked, looks at it and takes it off.\n";
        }
        told += &self.length_to_keep();
        let about = folder.join(about::NAME);
        told + &format!("What readers need to know, and nothing secret, is in {about:?}: give it to every party.\n")
    }

    /// An empty message may be one, but mostly it is what a command that failed has left of one.
    fn note_if_empty(&self) {
        if self.message.bytes.is_empty() {
            note(&format!("the message is empty: {}", self.message));
        }
    }

    /// Of the earlier form the length has to be told; it is that of what was split.
    fn length_to_keep(&self) -> String {
        let length = match (self.about.form, self.about.checked) {
            (Form::Padded, _) => return String::new(),
            (Form::Told(length), false) => format!("message's length, {length}"),
            (Form::Told(length), true) => format!("length, {length}, in which the check is counted"),
        };
        format!("Keep the {length}: it is needed to open the message, and the shares do not hold it.\n")
    }
}

/// How long a message is that is refused for it.
fn too_long(message: &Input, checked: bool) -> String {
    if checked {
        return digest::too_long(&message.to_string());
    }
    message.to_string()
}
