//! Archives with types against the calls with numbers.

mod drawn;

use drawn::Random;
use gilunavoi::archive::{self, Archive};
use gilunavoi::{raw, Refusal};

#[test]
fn written_and_read() {
    let mut random = Random(10);
    for count in (0..40).chain([4096]) {
        let lengths: Vec<usize> = (0..count).map(|_| 1 + random.below(9)).collect();
        let entries: Vec<Vec<u8>> = lengths.iter().map(|&length| random.bytes(length)).collect();
        let parts: Vec<&[u8]> = entries.iter().map(Vec::as_slice).collect();
        let file = archive::write(&parts).expect("an archive");
        let archive = Archive::open(&file).expect("an archive");
        assert_eq!(archive.count(), count);
        assert_eq!(archive.entries().collect::<Vec<_>>(), parts);
        assert_eq!(archive.entry(count), Err(Refusal::NoSuchEntry));
        assert_eq!(archive.entry(usize::MAX), Err(Refusal::NoSuchEntry));
        let mut other = vec![0; file.len()];
        assert_eq!(raw::archive::write(&parts.concat(), &lengths, &mut other), Ok(file.len() as u64));
        assert_eq!(file, other);
    }
}

#[test]
fn damaged() {
    let mut random = Random(11);
    let whole = archive::write(&[&[7], &[8, 9], &[1; 30]]).expect("an archive");
    for _ in 0..20000 {
        let mut file = whole.clone();
        let place = random.below(file.len());
        match random.below(3) {
            0 => file[place] ^= 1 << random.below(8),
            1 => file.truncate(place),
            _ => file.push(0),
        }
        let opened = Archive::open(&file);
        assert_eq!(opened.map(|archive| archive.count() as u64).map_err(Refusal::number), raw::archive::count(&file));
        let Ok(archive) = opened else { continue };
        for number in 0..5 {
            let entry = archive.entry(number).map_err(Refusal::number);
            assert_eq!(entry, raw::archive::entry(&file, number));
        }
    }
}
