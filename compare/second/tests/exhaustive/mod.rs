//! Every word of small figures, read.

use std::collections::{BTreeSet, HashMap};

use second::choose::unrank;
use second::codec::{decode, encode};
use second::Figures;

/// The list of digits of each number below base^len.
fn lists(base: u32, len: usize) -> impl Iterator<Item = Vec<u8>> {
    let digit = move |value: u32, i: usize| (value / base.pow(i as u32) % base) as u8;
    (0..base.pow(len as u32)).map(move |value| (0..len).map(|i| digit(value, i)).collect())
}

/// Reads every word of values up to q + 1. One is accepted exactly where one placement and message, with any values up to q inside the runs, lead to
/// it, and it is read as those; 4 is for a value above q, and 19 for words with silent cells alone. The answers that were given.
pub fn every_word(f: &Figures) -> BTreeSet<u8> {
    let written = all_found(f);
    let mut answers = BTreeSet::new();
    for word in lists(f.q + 2, f.n) {
        let (mut message, mut starts) = (vec![0xEE; f.k], vec![0xEEEE; f.m]);
        let answer = decode(f, &word, &mut message, &mut starts);
        let read = (starts, message);
        let untouched = (vec![0xEEEE; f.m], vec![0xEE; f.k]);
        assert!(answer == 0 || read == untouched, "{f:?} {word:?}");
        let read = (answer == 0).then_some(read);
        assert_eq!(read.as_ref(), written.get(&word), "{f:?} {word:?}");
        assert_eq!(answer == 4, word.iter().any(|&value| value as u32 > f.q));
        assert!(answer != 19 || f.silent(&word));
        answers.insert(answer);
    }
    answers
}

/// Every word that can be found, with its placement and message.
fn all_found(f: &Figures) -> HashMap<Vec<u8>, (Vec<u16>, Vec<u8>)> {
    let mut found = HashMap::new();
    for rank in 0..f.t {
        let starts = unrank(f, rank)[..f.m].to_vec();
        for message in lists(f.q, f.k) {
            let mut word = vec![0; f.n];
            assert_eq!(encode(f, &starts, &message, &mut word), 0);
            for damage in lists(f.q + 1, f.m * f.b) {
                for (run, values) in starts.iter().zip(damage.chunks_exact(f.b)) {
                    let run = *run as usize;
                    word[run..run + f.b].copy_from_slice(values);
                }
                let former = found.insert(word.clone(), (starts.clone(), message.clone()));
                assert!(former.is_none(), "two lead to {word:?}");
            }
        }
    }
    found
}
