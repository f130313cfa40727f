//! What `--help` says.

use crate::about::LONGEST_LABEL;
use crate::digest::{LENGTH as CHECK, LONGEST_MESSAGE as MAX_CHECKED};
use crate::failure::refusals;
use crate::pool::{KEYS, LONGEST, RECORD};
use crate::scheme::Scheme;
use gilunavoi::limits::{MAX_ENTRIES, MAX_MESSAGE, MAX_OFFSET_OR_LENGTH, MAX_PARTIES};

mod shares;

pub use shares::{check, rebuild};

/// What every command says that reads shares.
const ABOUT: &str = "\
--about FILE is the file that split wrote beside the shares, about: it says all of the scheme, the form, the length
and the check, so that --scheme and --length cannot stand with it. It is taken only as split writes it, but for
lines that end in CR and LF; anything else in it is refused, with the line. A file of a later version is refused.
";

/// What every command says that is given PARTY=FILE.
const MIX_UPS: &str = "\
One file for two parties is not accepted, be it by links; a copy of a file is another one. Where a file is
named share-K, or share-K and more after a dot, and given for a party other than K, a note on standard error
says so: the party may be wrong, or the name.
";

const COMMANDS: &str = "\
sharing splits a message into shares and opens it again from the beginnings of a few of them.

  sharing scheme [S] [--length L [--unpadded] [--checked]] [--range START..END | --first BYTES] [--picture FILE]
      says what a scheme means and costs, and what a message or a range of one costs in it, and draws it
  sharing pool new POOL KEYFILE
  sharing pool status POOL
      keeps a pool of keys, of which each byte is used once, and says how many are left
  sharing split [--scheme S] [--unpadded] [--checked] [--label TEXT] --pool POOL MESSAGE FOLDER
  sharing split [--scheme S] [--unpadded] [--checked] [--label TEXT] MESSAGE KEYS FOLDER
      writes one share a party, and what readers need to know into a file about
  sharing prefix [--about FILE | [--scheme S] [--length L]] --readers D SHARE OUT
      cuts out of a share what its party sends when D parties are read from
  sharing reconstruct [--about FILE | [--scheme S] [--length L]] [--checked] OUT PARTY=FILE ..
  sharing reconstruct [--about FILE | [--scheme S] [--length L]] [--range START..END | --first BYTES] OUT PARTY=FILE ..
      opens the message, or a range of it, from what the parties sent
  sharing rebuild [--about FILE | --scheme S] --party P [--held FILE] OUT PARTY=FILE ..
      makes a party's share anew out of whole shares, and says how much of a held copy is wrong
  sharing check [--about FILE | --scheme S] PARTY=FILE ..
      says whether whole shares agree, which one does not fit the others, and how many more may be lost
  sharing archive write FILE [SHARE ..]
  sharing archive list FILE
  sharing archive entry FILE NUMBER OUT
      keeps many shares in one file, says what is in it, and copies one out of it

  sharing COMMAND --help, or -h, says more, and sharing --version which version this is.
";

pub fn all() -> String {
    let table: String = refusals().map(|(number, reason)| format!("{number:4}  {reason}\n")).collect();
    let [default, former] = [Scheme::default(), Scheme::former_default()].map(|scheme| scheme.in_a_row());
    format!(
        "\
{COMMANDS}
A scheme has N parties. R of them may be absent, and Z may put their shares together and still learn
nothing but the message's length in blocks. The counts are the numbers of parties at which opening is
cheap, falling, the last one N - R. S is all of it in a row: N,R,Z and the counts. Without a scheme
it is {default}. The value of an option may also stand behind =, as in --readers=4.

The default was another before, {former}, and nothing in a share tells its scheme. Shares that were
split then without a scheme, those of the former default, are read with --scheme {former};
prefix --help and reconstruct --help say what happens otherwise.

A message is padded before it is split, so that it knows its own end. Shares of the earlier form do not
know it: split --unpadded writes them, and prefix and reconstruct are told the message's length, L.
With --checked the SHA-256 of the message is split with it, and reconstruct --checked refuses what does not fit.

Beside the shares split writes a small file, about, that says how they were split: the scheme, the form and, where
it is needed, the length, whether there is a check, the day and a label. Nothing in it is secret: give it to every
party. Who gives it to prefix, reconstruct, rebuild or check, with --about, has nothing else to remember or to type.

This program never draws keys: draw them evenly at random, and keep them as secret as the messages. The
best way to give them is a pool, which uses each byte once and overwrites it; pool --help says more. Where
they come from a file of their own, use each key file for one message only, and destroy it afterwards.

Files are written whole or not at all, for their owner's eyes only, and none is overwritten but those of a
pool. That holds on Ctrl-C, on Ctrl-\\ and on the signals TERM and HUP too. What cannot be caught, such as KILL or a
power cut, can leave some of the files. On file systems without unnamed files, as many sticks and network drives
have, it can also leave an empty file, and files named .NAME.NUMBER.part. All of them are as secret as what was to be
written, and for you to remove. Once the report is printed, the files and their names are safe from a power cut,
unless the file system cannot sync a folder, or you may write in it and not read it.

In the place of a file to read, - is standard input, once in a command line. In the place of OUT, and of the FILE
of archive write and scheme --picture, it is standard output: nothing else is written there, and the report goes to
standard error. As with a file nothing is written before all of it is known to be right; but who reads from a pipe
that stays empty sees only by the exit status that it failed. A file of that name is given as ./-, and a folder too.

The exit status is 0 when all went well, 1 when the input was refused or a file could not be read or
written, and 2 when the command line cannot be understood. A signal ends the program as it ends others.

Input is refused for the first of these reasons that applies, with its number; 17 is looked at before 9, and where
--length is given, 15 is:

{table}"
    )
}

pub fn scheme() -> String {
    format!(
        "\
sharing scheme N,R,Z,D1,D2.. [--length L [--unpadded] [--checked]] [--range START..END | --first BYTES] [--picture FILE]
sharing scheme [--length L [--unpadded] [--checked]] [--range START..END | --first BYTES] [--picture FILE]

Says of a scheme, or of the default one, how long a block is, how many rows it is kept in, how many key
bytes it takes, who learns what of a message, and for each count how many bytes of a block each party sends,
and all of them together.

  N         how many parties there are, 2 to {MAX_PARTIES}
  R         how many may be absent
  Z         how many may put their shares together and learn nothing, at least 1
  D1,D2..   the counts: numbers of parties to read from, falling, the last one N - R

Any N - R parties open a message. More than Z and fewer than N - R learn part of it, and can test a guess of all of
it, whatever the keys: a wrong one hardly ever fits. Only where Z is N - R - 1 there are none of these, as in
Shamir's scheme: where it is less, the scheme of as many parties that has this is named, and its price.

With --length a second table is of a message of L bytes, and not of a block: before it stand the number of its
blocks, its key bytes and the bytes of its shares, and beside the bytes to fetch how many times the message
they are. The message is padded, as split does it; with --unpadded it is of the earlier form. With a check, as
split --checked makes it, {CHECK} bytes more are split: give their sum, for a letter of 33 bytes {with_check}. Or give
--checked beside the length without them.

With --range or --first the first table goes on: how many of the rows that each party sends are needed for these
bytes of a message, how many bytes of a block those are, from all parties together, and which rows they are, in
the order in which they are used, numbered from 0. The byte at place P, counted from 0, is the range P..P+1.
reconstruct --help says more of ranges.

With --picture the rows of a block are drawn into FILE, as an SVG picture, which every browser shows: what stands in
each row, what is copied from where, and which rows each party sends. Of many rows only some are drawn.

Spaces may stand for the commas, here and after --scheme. The former default was {former}.
",
        with_check = 33 + CHECK,
        former = Scheme::former_default().in_a_row()
    )
}

pub fn split() -> String {
    format!(
        "\
sharing split [--scheme N,R,Z,D1,D2..] [--unpadded] [--checked] [--label TEXT] --pool POOL MESSAGE FOLDER
sharing split [--scheme N,R,Z,D1,D2..] [--unpadded] [--checked] [--label TEXT] MESSAGE KEYS FOLDER

Splits the file MESSAGE, of at most {MAX_MESSAGE} bytes, into one share a party: FOLDER/share-1 and so on. The
folder is made if it does not exist. The message is padded, so that it knows its own end: a byte 128 follows
it, and zeros up to the end of that byte's block. A message that fills its blocks takes one block more. The report
says how many bytes the message has, and where it has none a note on standard error does: look at it before the
message is destroyed, all the more where it came through a pipe.

FOLDER/about says how it was split, in lines of text: the scheme, the form and, with --unpadded, the length, the
check, today's date in UTC, or that of SOURCE_DATE_EPOCH where that is set, and the label. It holds nothing that
depends on what is in the message or on the keys, and no digest of a share. Give it to every party: the other
commands take it with --about. --label TEXT puts a name into it, of 1 to {LONGEST_LABEL} bytes and not blank, without
control characters, line ends and characters that are invisible or change the direction of text. The label is not
hidden from anybody: let it tell nothing that is secret.

Whoever has N - R of the shares can open the message, and until you remove them all of them stand in FOLDER. Hand
each share to its party, then remove it from there, and remove the message where it is not to stay.

With --unpadded the shares are of the earlier form: zeros alone, and only where the last block is not
full. Keep the message's length then, which is printed and stands in FOLDER/about: it is needed to open the
message, and the shares do not hold it.

With --checked the SHA-256 of the message, {CHECK} bytes, is put behind it and split with it, so that it is as
secret as the message: reconstruct --checked then refuses what is not the message that was split. It is
recommended. The message may have {MAX_CHECKED} bytes, and a length that is printed counts the check. The command
sha256sum makes it, found by PATH and tried with a known text first; where it cannot be run, or answers another
digest, no key is used and nothing is written.

This program never draws keys, and a message takes Z of them for each row of each block. Of two messages under
the same keys a single party learns something of how they differ, so no key byte may be used a second time.

With --pool, which is recommended, the pool sees to that: the next key bytes are taken out of it and overwritten,
and how many are left is said. They are marked as used before anything of a share is written: where that fails
afterwards, or is interrupted, they stay used all the same, and are wasted. pool --help says how a pool is made
and kept.

Without it the file KEYS has the keys, as many as are needed: where its length is another, the one that is needed
is said. Draw them evenly at random, keep them as secret as the message, use each key file for one message only,
and destroy it afterwards. One file as MESSAGE and as KEYS is not accepted, be it by links, and neither are the keys
of the pool as MESSAGE.
"
    )
}

pub fn pool() -> String {
    format!(
        "\
sharing pool new POOL KEYFILE
sharing pool status POOL

A pool is a folder with key bytes for many messages. split --pool takes as many as a message needs, in their order:
each byte is used once, and overwritten. It is the recommended way to give keys.

new     makes the folder POOL, which must not exist, of all bytes of the file KEYFILE, 1 to {LONGEST} of them.
        Draw them evenly at random. Destroy KEYFILE afterwards: a second pool made of it would use its bytes twice.
status  prints how many key bytes were loaded, and how many of them are used and left.

The folder has two files, which are for this program alone to change. {KEYS} has the key bytes, and {RECORD} says how
many there are, and how many of them, from the first on, are used. split writes the record, and waits until it is
safe on the disk, before it overwrites the used bytes and writes anything of a share. So whatever stops it, KILL
and a power cut included, bytes can be wasted, and none is used twice. Several runs on one pool wait for each other.

Keep a pool in one place, on a disk of one machine: on a network drive the runs of several machines may not wait
for each other, and a folder that is synchronised is a copy. Never copy a pool, and never put it or one of its
files back from a backup: bytes that were used since then would be used a second time. Used bytes are overwritten
with zeros, so six zeros in a row among the unused ones are refused; where fewer bytes were used since then, or the
whole folder is a copy, nothing is noticed. Best leave a pool out of all backups.

Overwriting does what a program can do, and no more. On flash disks, which SSDs and sticks are, on file systems that
copy on write or keep a journal or snapshots, and in backups, the old bytes may still be there after they are
overwritten. Who finds them learns something of the messages from a single share. Keep the pool on a disk that is
encrypted as a whole: that helps wherever old bytes are left on it.
"
    )
}

pub fn prefix() -> String {
    format!(
        "\
sharing prefix [--about FILE | [--scheme N,R,Z,D1,D2..] [--length L]] --readers D SHARE OUT

Writes into OUT what a party sends when D parties are read from: the beginning of its whole share, the
file SHARE. D is one of the scheme's counts.

{ABOUT}
--length L is for shares of the earlier form, which split --unpadded writes: L is the length of the
message, a check included, and the share must have the length that goes with it.

A share of the former default, one that was split without a scheme while that was {former}, needs
--scheme {former}. Without it the prefix of a padded message's share is cut too short where 4 or 5
parties are read from, and nothing is refused. With --length the share is refused for its own length, unless
L is at most 6.
",
        former = Scheme::former_default().in_a_row()
    )
}

pub fn reconstruct() -> String {
    format!(
        "\
sharing reconstruct [--about FILE | [--scheme N,R,Z,D1,D2..] [--length L]] [--checked]
                    OUT PARTY=FILE PARTY=FILE ..
sharing reconstruct [--about FILE | [--scheme N,R,Z,D1,D2..] [--length L]] [--range START..END | --first BYTES]
                    OUT PARTY=FILE PARTY=FILE ..

Opens a message and writes it into OUT, without its padding. Each FILE is the prefix that the party of
this number sent, cut for as many readers as there are parties here; their number is one of the scheme's
counts. A whole share is the prefix for the last count, and for no other. The parties may stand in any
order: they are sorted.

{MIX_UPS}
{ABOUT}
--length L is for shares of the earlier form, which split --unpadded writes: the message has L bytes, those of a
check included.

--checked is for a message that was split with --checked, and for the whole of it. The check, its last {CHECK} bytes,
is taken off and held against the message; where it does not fit, nothing is written and the exit status is 1:
a false byte, a wrong party, scheme, form, length or number of readers does not pass. Who forgets --checked gets the
message with {CHECK} bytes more at its end, and no word of it; head -c -{CHECK} takes them off, and sha256sum of what
is left has to show them. An about file tells of the check, so that it is looked at without --checked too. But one
that comes back from the parties proves nothing: where the line is gone from it, nothing is held against the check.
Who knows that there is one gives --checked beside --about: a file that tells of none is then not accepted, and
the exit status is 1.

The check is no signature. Shares are linear: parties that know or guess the message, as many as are read from less
Z, can change their own shares so that a message of their choice opens, with a check that fits. Whole shares of
more parties, and sharing check, can show that.

Of a range nothing is held against the check: the report says so where the about file tells of one. The range then
ends before the check, where it is known where the message ends; where it is not, the report says from which byte
on the check may be.

--range START..END writes only the bytes from START up to END, END not included, counted from 0; --first BYTES
is --range 0..BYTES. It is for who wants the first lines while the rest is still on its way: not all rows of
the prefixes are used, and what stands in the others changes nothing. Each FILE must have its full length, but
anything may stand in the rows that are not used. A row that is used and has not come opens to other bytes,
and nothing notices it: sharing scheme --range says beforehand which rows are used, and the report which were.

A row has a byte of each block, and the rows stand in a prefix one after another: with N blocks, row J is the
bytes from J x N to J x N + N - 1, J counted from 0. Each count adds rows to those of the count before it. The
rows that the number of parties here adds are used first, then those that the count before it adds, and so on,
each time from the first to the last, and no more as soon as every byte of the range, or a copy of it, stands
in a row that was used. So with fewer parties than the first count it is the ends of the prefixes that have to
be there first.

A row is used for all blocks, so a range as long as a block needs all rows. In the default scheme, with blocks
of 6 bytes, every range of 6 bytes or more does, and the first byte alone takes 1 of 2, 2 of 3 and 5 of 6 rows
for 5, 4 and 3 parties. A range pays in schemes with long blocks.

Where not all rows are used nothing of a range is checked, and without --length it is not known where the
message ends: the range may go on in the padding, and the report says from which byte on that may be. Where
all rows are used, the end is looked for as it is for the whole message.

Without --checked it cannot be seen here whether the message is the right one. A false byte, a wrong party, a
prefix that was cut for another number of readers or a scheme that is not the message's is noticed only if the
last block then does not end as padding does: false bytes in other blocks always pass, and a false last block may.
So may a message of the earlier form that is opened without --length: where it ends in a byte 128, or in
128 and zeros, what stands before that byte is taken for the whole message.
With --length nothing is noticed, a wrong L included, as long as the lengths fit, and so it is of a range for
which not all rows are used.

Shares of the former default, those that were split without a scheme while that was {former}, need
--scheme {former}. Without it they are taken for shares of the default scheme, and other bytes, or
pieces of the message, may be written without a refusal: with --length where the lengths fit, and without it
where the message's end comes out as an end in that scheme too, as it does for many lengths, or is not looked
for, as for a range that does not need all rows.
",
        former = Scheme::former_default().in_a_row()
    )
}

pub fn archive() -> String {
    format!(
        "\
sharing archive write FILE [SHARE ..]
sharing archive list FILE
sharing archive entry FILE NUMBER OUT

An archive is one file that holds many shares, its entries.

write   makes the archive FILE of the files SHARE, at most {MAX_ENTRIES} of them, of 1 to {MAX_OFFSET_OR_LENGTH} bytes each. The last
        one has to start at most {MAX_OFFSET_OR_LENGTH} bytes after the file's start: before it stand all others, 4 bytes
        for each, itself included, and 2 bytes more. The entries are numbered from 0, in the order in which
        they are given; their names are not kept. Without any SHARE the archive has no entries.
list    prints a line for each entry: its number, its length and its offset from the file's start. Of an
        archive without entries it prints nothing, and says so on standard error.
entry   writes the entry of this NUMBER into OUT.

Before anything is read out of an archive, the whole of it is checked: its entries stand end to end, up to the
end of the file. What is in them is not looked at: any files may be put in, and come out as they were.

An archive is for the shares that one party keeps. Who reads it has all of them, so shares of one message that
belong to different parties must not stand in the same one.
"
    )
}
