//! What `--help` says of the commands that look after shares.

use super::{ABOUT, MIX_UPS};
use crate::scheme::Scheme;

/// How far a check goes. Both commands make the same.
fn what_is_checked() -> String {
    format!(
        "\
Shares agree if they are all shares of one message, whichever it is. How much that says depends on how many were
given:

  N - R             always agree, right or wrong. Nothing is checked: where a share is wrong, or a party or the
                    scheme is, a share that is rebuilt from them is wrong too, and a held copy that is right
                    differs from it. The exit status is 0 all the same; the report says that nothing could be
                    checked.
  N - R + 1         A wrong share is noticed, but not which one it is.
  N - R + 2, more   A single wrong share is noticed, and its party named: the one without whose share all others
                    agree. Where more than one is wrong, or they are shares of different messages, mostly nobody
                    is named. But of C shares C - (N - R) wrong ones that were made to fit together can have a
                    right one named: 2 of 5 in the default scheme. Who then rebuilds that one from them has
                    shares that all agree, and open to another message. So keep the old share, and rebuild only
                    from parties that are trusted, or where what the others open to is seen to be right.

Shares that do not agree are refused, 18, and nothing is written; the exit status is 1. Wrong shares are noticed as
long as N - R right ones are given too: who can replace all but N - R - 1 of those that are given can replace them
by others that agree. And where all but one are shares of another message, that one is named.

Empty files agree, as the shares of an empty message of the earlier form, and so do copies of one file, whatever is
in it. The report says where files are empty and which ones hold the same bytes; the exit status stays 0.

Shares of the former default, those that were split without a scheme while that was {former}, need
--scheme {former}. Without it N - R of them pass, and what is rebuilt is mostly wrong. More hardly ever
agree; but of a message of at most 10 bytes, or one that is mostly zeros, they may, or a right one may be named.
",
        former = Scheme::former_default().in_a_row()
    )
}

pub fn rebuild() -> String {
    format!(
        "\
sharing rebuild [--about FILE | --scheme N,R,Z,D1,D2..] --party P [--held FILE] OUT PARTY=FILE PARTY=FILE ..

Makes the share of party P anew, exactly as it was split, and writes it into OUT: for a party whose share is lost, or
in doubt. Each FILE is the whole share of the party of this number, no prefix, and there are N - R of them or more.
The parties may stand in any order, and P may be one of them. The message is neither shown nor written. But who has
N - R shares in one place can open it: do this where the message may be opened, and destroy the copies afterwards.

--held FILE is what party P has now. How many of its bytes are wrong is said; the file stays as it is. It is as long
as a share, or empty, which means that there is none. OUT must not exist: where the new share is to stand in the
place of the old one, move that away first.

It does not matter in which form the message was split: neither its length nor its padding is looked at. But with
--about the shares must have a length that goes with what that file says.

{ABOUT}
{MIX_UPS}
{}",
        what_is_checked()
    )
}

pub fn check() -> String {
    format!(
        "\
sharing check [--about FILE | --scheme N,R,Z,D1,D2..] PARTY=FILE PARTY=FILE ..

Says whether shares agree, and how many more may be lost. Nothing is written. It is meant to be run from time to
time, with the shares of all parties, so that one that went bad is replaced, by rebuild, while there are enough
others. Each FILE is the whole share of the party of this number, no prefix, and there are N - R of them or more. The
parties may stand in any order. The message is neither shown nor written. But who has N - R shares in one place can
open it: do this where the message may be opened, and destroy the copies afterwards.

{ABOUT}
{MIX_UPS}
{}",
        what_is_checked()
    )
}
