//! Input of which the whole would not fit into the memory is refused, and no room is asked for that grows with it. One slice
//! stands for many here.

use gilunavoi::limits::{MAX_ENTRIES, MAX_MESSAGE, MAX_OFFSET_OR_LENGTH};
use gilunavoi::{archive, Form, Refusal, Scheme};
use std::alloc::{GlobalAlloc, Layout, System};
use std::cell::Cell;

/// The system's memory, and the most that this thread asked for at once.
struct Watched;

thread_local! {
    static MOST: Cell<usize> = const { Cell::new(0) };
}

fn asked_for(bytes: usize) {
    MOST.with(|most| most.set(most.get().max(bytes)));
}

// SAFETY: the system's calls, with what was given. A cell without a destructor needs no memory itself.
unsafe impl GlobalAlloc for Watched {
    unsafe fn alloc(&self, layout: Layout) -> *mut u8 {
        asked_for(layout.size());
        // SAFETY: as the caller has it.
        unsafe { System.alloc(layout) }
    }

    unsafe fn alloc_zeroed(&self, layout: Layout) -> *mut u8 {
        asked_for(layout.size());
        // SAFETY: as the caller has it.
        unsafe { System.alloc_zeroed(layout) }
    }

    unsafe fn realloc(&self, memory: *mut u8, layout: Layout, size: usize) -> *mut u8 {
        asked_for(size);
        // SAFETY: as the caller has it.
        unsafe { System.realloc(memory, layout, size) }
    }

    unsafe fn dealloc(&self, memory: *mut u8, layout: Layout) {
        // SAFETY: as the caller has it.
        unsafe { System.dealloc(memory, layout) }
    }
}

#[global_allocator]
static MEMORY: Watched = Watched;

/// The greatest room that a call may make: the prefixes of a message of any scheme, or an archive, with all that is around.
const ROOM: usize = 1 << 20;

/// The answer of a call, which asked for no more than that at once.
fn sparing<T>(call: impl FnOnce() -> T) -> T {
    MOST.with(|most| most.set(0));
    let answer = call();
    let most = MOST.with(Cell::get);
    assert!(most <= ROOM, "{most} bytes");
    answer
}

fn huge() -> Vec<u8> {
    vec![0; 64 << 20]
}

#[test]
fn the_memory_is_watched() {
    assert_eq!(sparing(|| vec![0; 1000].len()), 1000);
    assert_eq!(huge().len(), MOST.with(Cell::get));
}

#[test]
fn opening() {
    let (scheme, huge) = (Scheme::default(), huge());
    let of = |parties: &[u8]| parties.iter().map(|&party| (party, &huge[..])).collect::<Vec<_>>();
    let open = |prefixes: &[(u8, &[u8])]| sparing(|| scheme.open(prefixes));
    assert_eq!(open(&of(&[1, 2, 3])), Err(Refusal::ShareLength));
    assert_eq!(open(&[(1, &huge), (2, &huge[1..]), (3, &[])]), Err(Refusal::ShareLength));
    assert_eq!(open(&[(1, &[]), (2, &huge), (3, &huge)]), Err(Refusal::ShareLength));
    // The refusals that come before.
    assert_eq!(open(&of(&[1, 2])), Err(Refusal::NotACount));
    assert_eq!(open(&of(&[1; 1 << 17])), Err(Refusal::NotACount));
    assert_eq!(open(&of(&[1, 2, 2])), Err(Refusal::Parties));
}

#[test]
fn rebuilding() {
    let (scheme, huge) = (Scheme::default(), huge());
    let of = |parties: &[u8]| parties.iter().map(|&party| (party, &huge[..])).collect::<Vec<_>>();
    let rebuild = |shares: &[(u8, &[u8])], party| {
        sparing(|| scheme.rebuild_from(shares, party, None)).map_err(|not_rebuilt| not_rebuilt.refusal)
    };
    assert_eq!(rebuild(&of(&[1, 2, 3]), 4), Err(Refusal::ShareLength));
    assert_eq!(rebuild(&[(1, &huge), (2, &huge[1..]), (3, &[])], 4), Err(Refusal::ShareLength));
    assert_eq!(rebuild(&[(1, &[]), (2, &huge), (3, &huge)], 4), Err(Refusal::ShareLength));
    // The refusals that come before.
    assert_eq!(rebuild(&of(&[1, 2]), 4), Err(Refusal::TooFewShares));
    assert_eq!(rebuild(&of(&[1; 1 << 17]), 4), Err(Refusal::Parties));
    assert_eq!(rebuild(&of(&[1, 2, 3]), 0), Err(Refusal::Parties));
}

#[test]
fn the_longest_message_opens() {
    for text in ["2,0,1,2", "5,2,2,5,4,3", "16,8,7,16,15,8", "9,3,1,9,8,7,6"] {
        let scheme: Scheme = text.parse().expect(text);
        let (message, n) = (vec![5; MAX_MESSAGE], scheme.n());
        let keys = vec![7; scheme.lengths(Form::Padded, MAX_MESSAGE).expect("lengths").keys];
        let mut shares = scheme.split_to_shares(Form::Padded, &message, &keys).expect("shares");
        // The fewest readers read whole shares.
        let readers = usize::from(n - scheme.r());
        let open = |shares: &[Vec<u8>]| {
            let sent: Vec<(u8, &[u8])> = (1..=n).zip(shares.iter().map(Vec::as_slice)).take(readers).collect();
            sparing(|| scheme.open(&sent))
        };
        // And from all of them one is rebuilt.
        let rebuild = |shares: &[Vec<u8>]| {
            let whole: Vec<(u8, &[u8])> = (1..=n).zip(shares.iter().map(Vec::as_slice)).collect();
            sparing(|| scheme.rebuild_from(&whole, n, None)).map(|rebuilt| rebuilt.share)
        };
        assert_eq!(open(&shares).as_deref(), Ok(&message[..]), "{text}");
        assert_eq!(rebuild(&shares).as_ref(), Ok(&shares[usize::from(n) - 1]), "{text}");
        shares.iter_mut().for_each(|share| share.extend(vec![0; scheme.rows()]));
        assert_eq!(open(&shares), Err(Refusal::ShareLength), "{text}");
        assert_eq!(rebuild(&shares), Err(Refusal::ShareLength.into()), "{text}");
    }
}

#[test]
fn writing_archives() {
    let huge = huge();
    let write = |entries: &[&[u8]]| sparing(|| archive::write(entries));
    assert_eq!(write(&[&huge]), Err(Refusal::ArchiveEntries));
    assert_eq!(write(&[&huge[..]; MAX_ENTRIES]), Err(Refusal::ArchiveEntries));
    // There are too many, whatever they have.
    assert_eq!(write(&[&huge[..]; MAX_ENTRIES + 1]), Err(Refusal::ArchiveCount));
    assert_eq!(write(&vec![&huge[..]; 1 << 18]), Err(Refusal::ArchiveCount));
    assert_eq!(write(&vec![&huge[..0]; 1 << 18]), Err(Refusal::ArchiveCount));
}

/// The longest archive: the last entry starts at the greatest offset. A byte more anywhere is refused.
#[test]
fn the_longest_archive() {
    let bytes = vec![9; MAX_OFFSET_OR_LENGTH + 1];
    let (first, last) = (MAX_OFFSET_OR_LENGTH - 10, MAX_OFFSET_OR_LENGTH);
    let write = |first: usize, last: usize| sparing(|| archive::write(&[&bytes[..first], &bytes[..last]]));
    assert_eq!(write(first, last).map(|file| file.len()), Ok(2 * MAX_OFFSET_OR_LENGTH));
    assert_eq!(write(first + 1, last), Err(Refusal::ArchiveEntries));
    assert_eq!(write(first, last + 1), Err(Refusal::ArchiveEntries));
    assert_eq!(write(last + 1, last + 1), Err(Refusal::ArchiveEntries));
}
