//! The commands `rebuild`, which makes a party's share anew out of whole shares of others, and `check`, which says whether
//! shares agree.

use crate::arguments::{file_before_parties, usage, Arguments};
use crate::failure::{Done, Failure};
use crate::files::{read, Input};
use crate::mix_ups::note_name;
use crate::parties::{check_equally_long, joined, Given};
use crate::report::{counted, listed, say, sentence};
use crate::scheme::{Block, Scheme};
use crate::standard::{is_standard, named};
use crate::target::Target;
use crate::told::Told;
use gilunavoi::raw::{self, NotRebuilt};
use std::collections::BTreeMap;
use std::ffi::OsString;
use std::path::PathBuf;

pub fn run(arguments: &Arguments) -> Done {
    let Some((out, words)) = arguments.words.split_first() else {
        return usage("needed are OUT and PARTY=FILE, as often as there are shares".to_string());
    };
    let target = Target::new(file_before_parties(out)?)?;
    let party = arguments.party("--party")?;
    let shares = Shares::new(arguments, words, Some(party))?;
    note_name(party, out.as_ref());
    let held = arguments.option("--held").map(|path| read(PathBuf::from(path))).transpose()?;
    let (differing, share) = shares.rebuild(party, held.as_ref())?;
    let held = shares.told_of(held.as_ref(), differing);
    target.put(&share, &[shares.is_in(&target, party), held, shares.agree(), shares.scheme_used()].concat())
}

/// Rebuilds the share of one of the parties, and drops it.
pub fn check(arguments: &Arguments) -> Done {
    let shares = Shares::new(arguments, &arguments.words, None)?;
    let Some((&party, own)) = shares.parties.first().zip(shares.files.first()) else {
        return usage("needed is PARTY=FILE, as often as there are shares".to_string());
    };
    let (differing, _) = shares.rebuild(party, Some(own))?;
    assert_eq!(differing, 0, "of shares that agree each is rebuilt as it is");
    say(&[shares.agree(), shares.may_be_lost(), shares.scheme_used()].concat())
}

const EMPTY: &str = "the files are empty: they are shares of an empty message of the earlier form, or no shares at all";

/// Whole shares of some parties.
struct Shares {
    told: Told,
    block: Block,
    /// In the order that the library wants: rising.
    parties: Vec<u8>,
    files: Vec<Input>,
}

impl Shares {
    /// `wanted` is the party whose share is to be rebuilt, if one is.
    fn new(arguments: &Arguments, words: &[OsString], wanted: Option<u8>) -> Result<Shares, Failure> {
        let given = Given::new(arguments, words, wanted)?;
        let told = Told::of(arguments)?;
        let block = told.scheme.check()?;
        let (parties, files) = given.read()?;
        Ok(Shares { told, block, parties, files })
    }

    /// The length of a share. All are equally long, or refused.
    fn length(&self) -> usize {
        self.files.first().map_or(0, |file| file.bytes.len())
    }

    /// How many bytes of the held copy are wrong, and the share of the party.
    fn rebuild(&self, party: u8, held: Option<&Input>) -> Result<(u64, Vec<u8>), Failure> {
        let Scheme { n, r, z, ref counts, .. } = self.told.scheme;
        let (copy, mut share) = (held.map_or(&[][..], |held| &held.bytes), vec![0; self.length()]);
        let answer = raw::rebuild(n, r, z, counts, &self.parties, &joined(&self.files), party, copy, &mut share);
        if matches!(answer, Ok(_) | Err(NotRebuilt { refusal: 9 | 10 | 18, .. })) {
            self.check_each()?;
        }
        Ok((answer.map_err(|not_rebuilt| self.refused(not_rebuilt, party, held))?, share))
    }

    /// Refuses the first share whose length is none that a share has, or is not the others'.
    fn check_each(&self) -> Done {
        let wrong = self.files.iter().find_map(|file| self.wrong_length(file));
        let unequal =
            || check_equally_long(&self.files, "shares").map_err(|failure| self.told.scheme.suspected(failure));
        wrong.map_or_else(unequal, Err)
    }

    /// The refusal of a share that may not be so long. The library does without the form of the message, and so does who
    /// names none; where the about file tells it, the length has to fit it too.
    fn wrong_length(&self, file: &Input) -> Option<Failure> {
        let (rows, bytes) = (self.block.rows, file.bytes.len());
        if self.told.by_file() {
            let fits = self.told.fits(&self.block, rows, bytes);
            return (!fits).then(|| self.told.wrong_length(&self.block, rows, "a whole share", file));
        }
        let most = self.block.most;
        let fits = bytes == bytes / rows * rows && bytes / rows <= most;
        let needed = format!("a whole share has {} for each of at most {most} blocks", counted(rows, "byte"));
        (!fits).then(|| self.told.scheme.suspected(Failure::Refused(9, format!("{needed}, and {file}"))))
    }

    /// The refusal that the library gave, with what was given.
    fn refused(&self, NotRebuilt { refusal, party: named }: NotRebuilt, party: u8, held: Option<&Input>) -> Failure {
        let (parties, scheme) = (&self.parties, &self.told.scheme);
        let (length, enough, given) = (counted(self.length(), "byte"), self.enough(), parties.len());
        let detail = match (refusal, named, held) {
            // The list is tested before the party that is wanted.
            (7, ..) if self.list_is_right() => format!("the one to rebuild is {party}, and the scheme is {scheme}"),
            // The shares are as long as they have to be, so the scheme has no part in it.
            (9, _, Some(held)) => {
                let needed = format!("a held copy is as long as the shares, {length}, or empty");
                return Failure::Refused(9, format!("{needed}, and {held}"));
            }
            (17, ..) => {
                let were = if given == 1 { "was" } else { "were" };
                format!("needed are whole shares of {enough} parties or more, and {given} {were} given; the scheme is {scheme}")
            }
            (18, Some(named), _) => self.does_not_fit(named),
            (18, None, _) => self.why_nobody_is_named(),
            _ => format!("the parties are {parties:?}, and the scheme is {scheme}"),
        };
        self.told.scheme.suspected(Failure::Refused(refusal, detail))
    }

    /// Whether the parties that lend a share are different ones of the scheme's. They are sorted.
    fn list_is_right(&self) -> bool {
        let different = self.parties.windows(2).all(|pair| pair[0] < pair[1]);
        different && self.parties.iter().all(|party| (1..=self.told.scheme.n).contains(party))
    }

    /// So many shares are enough to open the message and to rebuild the others.
    fn enough(&self) -> usize {
        (self.told.scheme.n - self.told.scheme.r) as usize
    }

    /// What is said of the party that is named. Its share need not be the wrong one: others may have been made to fit
    /// together.
    fn does_not_fit(&self, party: u8) -> String {
        let file = self.parties.iter().zip(&self.files).find(|(other, _)| **other == party);
        let path = file.map_or(String::new(), |(_, file)| format!(", {},", named(&file.path)));
        format!(
            "the share of party {party}{path} does not fit the others, which agree without it\n\
             sharing rebuild --party {party} rebuilds it from the others"
        )
    }

    fn why_nobody_is_named(&self) -> String {
        let (given, needed, n) = (self.parties.len(), self.enough() + 2, self.told.scheme.n);
        let only = if needed > n as usize { format!(", and there are only {n} parties") } else { String::new() };
        let why = if given < needed {
            format!("{given} shares are too few to tell which one does not fit: that takes {needed}{only}")
        } else {
            "more than one is wrong, or they are of different messages: whichever is left out, the others do not agree"
                .to_string()
        };
        let doubts: String = self.doubts().into_iter().map(|doubt| format!("\n{doubt}")).collect();
        format!("{why}{doubts}\neach file has to be a whole share, and no prefix")
    }

    fn is_in(&self, target: &Target, party: u8) -> String {
        let (bytes, many, there) = (counted(self.length(), "byte"), self.parties.len(), target.there());
        format!("The share of party {party}, {bytes}, is {there}, rebuilt from the shares of {many} parties.\n")
    }

    /// What is said of a held copy that differs from the share in so many bytes. Which of the two is right is known as far as
    /// the shares are checked. Where they do not differ, nothing of it is found wrong either way.
    fn told_of(&self, held: Option<&Input>, differing: u64) -> String {
        let Some(Input { path, bytes, .. }) = held else {
            return "There was no held copy.\n".to_string();
        };
        let name = if is_standard(path) { "on standard input".to_string() } else { named(path) };
        let of_all = |many: u64| format!("{many} of the {} of the held copy {name}", counted(bytes.len(), "byte"));
        match (differing, self.are_checked()) {
            _ if bytes.is_empty() => format!("There was no held copy: {} is empty.\n", named(path)),
            (0, _) => format!("No byte of the held copy {name} was wrong.\n"),
            (1, true) => format!("{} was wrong.\n", of_all(1)),
            (many, true) => format!("{} were wrong.\n", of_all(many)),
            (1, false) => format!("{} differs from this share; which is right could not be checked.\n", of_all(1)),
            (many, false) => format!("{} differ from this share; which is right could not be checked.\n", of_all(many)),
        }
    }

    /// With one share more than are needed a wrong one is noticed.
    fn are_checked(&self) -> bool {
        self.parties.len() > self.enough()
    }

    /// What is said of shares that agree.
    fn agree(&self) -> String {
        let many = self.parties.len();
        let doubts: String = self.doubts().iter().map(|doubt| sentence(doubt)).collect();
        if self.are_checked() {
            return format!("The {many} shares agree.\n{doubts}");
        }
        let more = if many < self.told.scheme.n as usize { " It takes one more to notice a wrong one." } else { "" };
        format!("Nothing could be checked: {many} shares always agree, right or wrong.{more}\n{doubts}")
    }

    /// Files that are hardly what they are taken for, and may agree all the same: empty ones, and copies of one file.
    fn doubts(&self) -> Vec<String> {
        if self.length() == 0 {
            return vec![EMPTY.to_string()];
        }
        let mut places: BTreeMap<&[u8], Vec<usize>> = BTreeMap::new();
        for (place, file) in self.files.iter().enumerate() {
            places.entry(&file.bytes).or_default().push(place);
        }
        let mut alike: Vec<Vec<usize>> = places.into_values().filter(|places| places.len() > 1).collect();
        alike.sort();
        alike.iter().map(|places| self.same_bytes(places)).collect()
    }

    fn same_bytes(&self, places: &[usize]) -> String {
        let parties = listed(places.iter().map(|&place| self.parties[place].to_string()));
        let paths = listed(places.iter().map(|&place| named(&self.files[place].path)));
        format!(
            "the files of the parties {parties}, {paths}, hold the same bytes: possible for shares of one message, but \
             unlikely"
        )
    }

    /// How many more shares the parties can do without.
    fn may_be_lost(&self) -> String {
        let enough = self.enough();
        match self.parties.len() - enough {
            0 => format!("No more share may be lost: {enough} are needed to open the message.\n"),
            spare => {
                let more = if spare == 1 { "share" } else { "shares" };
                format!("{spare} more {more} may be lost: any {enough} open the message and rebuild the others.\n")
            }
        }
    }

    fn scheme_used(&self) -> String {
        format!("The scheme is {}.\n", self.told.scheme.used_by_readers())
    }
}
