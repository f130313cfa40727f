//! The lengths of a message are those that the other calls take, and no others.

mod drawn;

use drawn::{schemes, Random, FORMS};
use gilunavoi::limits::MAX_MESSAGE;
use gilunavoi::{raw, Form, Lengths, Refusal, Scheme};

fn splits_and_opens(scheme: &Scheme, form: Form, message: &[u8], random: &mut Random) {
    let Lengths { blocks, keys, share, output, opened } = scheme.lengths(form, message.len()).expect("a short message");
    assert_eq!((share, output), (blocks * scheme.rows(), usize::from(scheme.n()) * share));
    let (keys, mut shares) = (random.bytes(keys + 1), vec![0; output + 1]);
    let few = keys.len() - 1;
    assert_eq!(scheme.split(form, message, &keys[..few], &mut shares[..output]), Ok(share));
    assert_eq!(scheme.split(form, message, &keys, &mut shares[..output]), Err(Refusal::KeyLength));
    assert_eq!(scheme.split(form, message, &keys[..few], &mut shares), Err(Refusal::OutputLength));
    let parties: Vec<u8> = (1..=scheme.n() - scheme.r()).collect();
    let (prefixes, mut out) = (&shares[..parties.len() * share], vec![0; opened + 1]);
    let open = |out: &mut [u8]| match form {
        Form::Padded => scheme.reconstruct_padded(&parties, prefixes, out).map(|opened| opened.length),
        Form::Earlier => scheme.reconstruct(message.len(), &parties, prefixes, out).map(|_| message.len()),
    };
    assert_eq!(open(&mut out), Err(Refusal::OutputLength));
    assert_eq!(open(&mut out[..opened]), Ok(message.len()));
    assert_eq!(&out[..message.len()], message);
}

#[test]
fn as_splitting_and_opening_take_them() {
    let mut random = Random(9);
    for (scheme, form) in schemes().into_iter().flat_map(|scheme| FORMS.map(|form| (scheme.clone(), form))) {
        let m = scheme.block();
        for length in [0, 1, m - 1, m, m + 1, 3 * m, MAX_MESSAGE - 1, MAX_MESSAGE] {
            let message = random.bytes(length);
            splits_and_opens(&scheme, form, &message, &mut random);
        }
    }
}

#[test]
fn with_numbers_and_by_default() {
    let default = Scheme::default();
    for length in (0..100).chain([MAX_MESSAGE, MAX_MESSAGE + 1, 1 << 63, usize::MAX]) {
        let refused = length > MAX_MESSAGE;
        for scheme in schemes() {
            let (n, r, z, counts) = (scheme.n(), scheme.r(), scheme.z(), scheme.counts());
            let number = |form| scheme.lengths(form, length).map_err(Refusal::number);
            assert_eq!(number(Form::Padded), raw::lengths_padded(n, r, z, counts, length));
            assert_eq!(number(Form::Earlier), raw::lengths(n, r, z, counts, length));
            assert_eq!(number(Form::Padded).err(), refused.then_some(5));
        }
        let number = |form| default.lengths(form, length).map_err(Refusal::number);
        assert_eq!(number(Form::Padded), raw::lengths_padded_default(length));
        assert_eq!(number(Form::Earlier), raw::lengths_default(length));
    }
    for (n, r, z, counts, number) in
        [(1, 0, 1, &[1][..], 1), (5, 2, 3, &[5, 4, 3], 2), (5, 2, 2, &[], 3), (10, 4, 1, &[10, 9, 8, 6], 4)]
    {
        for length in [0, MAX_MESSAGE + 1] {
            assert_eq!(raw::lengths(n, r, z, counts, length), Err(number));
            assert_eq!(raw::lengths_padded(n, r, z, counts, length), Err(number));
        }
    }
}
