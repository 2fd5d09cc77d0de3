//! Bench strips of document 01, through the wrapper.

use burgzemi::{
    cover, decode, encode, job_read, job_write, Figures, Refusal, Table, MAX_RUNS, MAX_WORD,
};

fn symbols(text: &str) -> Vec<u8> {
    text.bytes()
        .filter(|&byte| byte != b' ')
        .map(|byte| byte - b'0')
        .collect()
}

fn first() -> Figures {
    Figures::new(30, 2, 1, 3).expect("these figures fit")
}

#[test]
fn figures() {
    assert_eq!(first().message_len(), 20);
    assert_eq!(first().payload_len(), 2);
    assert_eq!(Figures::new(30, 2, 1, 6), Err(Refusal::UNFIT));
    assert_eq!(Figures::new(30, 2, 0, 6), Err(Refusal::INVALID));
    assert_eq!(Figures::new(3, 4, 1, 1).map(|f| f.message_len()), Ok(0));
    assert_eq!(Figures::new(3, 3, 1, 1), Err(Refusal::UNFIT));
    assert!(Figures::new(60, 17, 2, 9).is_ok());
    assert_eq!(Figures::new(60, 17, 2, 10), Err(Refusal::UNFIT));
}

/// Document 02's change request 11.
#[test]
fn limits() {
    assert_eq!((MAX_WORD, MAX_RUNS), (4096, 8));
    let fits = |n, m, b| Figures::new(n, 256, m, b).map(|f| f.message_len());
    assert_eq!(fits(4096, 6, 112), Ok(3388));
    assert_eq!(fits(4097, 6, 112), Err(Refusal::INVALID));
    assert_eq!(fits(999, 8, 15), Ok(823));
    assert_eq!(fits(999, 9, 15), Err(Refusal::INVALID));
    // Above 9223372036854775807 placements.
    assert_eq!(fits(888, 8, 1), Err(Refusal::UNFIT));
    assert_eq!(fits(888, 8, 2), Ok(816));
}

#[test]
fn eight_runs() {
    let strip = Figures::new(999, 256, 8, 15).expect("these figures fit");
    let starts: [u16; 8] = std::array::from_fn(|i| 984 - 16 * (7 - i as u16));
    let mut word = [0xEE; 999];
    for wrong in [7, 9, 12] {
        let given: Vec<u16> = starts.iter().copied().cycle().take(wrong).collect();
        assert_eq!(
            encode(&strip, &given, &[5; 823], &mut word),
            Err(Refusal::LENGTH)
        );
    }
    assert_eq!(encode(&strip, &starts, &[5; 823], &mut word), Ok(()));
    for start in starts {
        word[start as usize..start as usize + 15].fill(0xFF);
    }
    let mut message = [0; 823];
    let placement = decode(&strip, &word, &mut message).expect("a written word is read");
    assert_eq!((&placement[..], message), (&starts[..], [5; 823]));
}

#[test]
fn first_strip() {
    let word = symbols("0 11111111111 000 11111 101100 1111");
    let mut written = [0xEE; 30];
    assert_eq!(encode(&first(), &[12], &[1; 20], &mut written), Ok(()));
    assert_eq!(written[..], word);
    let mut message = [0; 20];
    let placement = decode(&first(), &word, &mut message).expect("a written word is read");
    assert_eq!((&placement[..], message), (&[12][..], [1; 20]));
}

#[test]
fn refused_words_keep_the_message() {
    let mut message = [0xEE; 20];
    assert_eq!(
        decode(&first(), &[0; 30], &mut message),
        Err(Refusal::PATTERN)
    );
    assert_eq!(
        decode(&first(), &[1; 30], &mut message),
        Err(Refusal::PATTERN)
    );
    assert_eq!(
        decode(&first(), &[1; 29], &mut message),
        Err(Refusal::LENGTH)
    );
    assert_eq!(
        decode(&first(), &[3; 30], &mut message),
        Err(Refusal::SYMBOL)
    );
    for (head, refusal) in [("111111", Refusal::VALUE), ("100000", Refusal::DISAGREES)] {
        let word = symbols(&format!("0 11111111111 000 11111 {head} 1111"));
        assert_eq!(decode(&first(), &word, &mut message), Err(refusal));
    }
    assert_eq!(message, [0xEE; 20]);
}

#[test]
fn refused_starts() {
    let mut word = [0xEE; 30];
    assert_eq!(
        encode(&first(), &[28], &[1; 20], &mut word),
        Err(Refusal::STARTS)
    );
    assert_eq!(
        encode(&first(), &[], &[1; 20], &mut word),
        Err(Refusal::LENGTH)
    );
    assert_eq!(
        encode(&first(), &[1; 9], &[1; 20], &mut word),
        Err(Refusal::LENGTH)
    );
    assert_eq!(word, [0xEE; 30]);
}

#[test]
fn covering() {
    let covered = |worn: &[usize]| {
        let mut map = [0; 30];
        worn.iter().for_each(|&cell| map[cell] = 1);
        cover(&first(), &map).map(|placement| placement[0])
    };
    assert_eq!(covered(&[27, 29]), Ok(27));
    assert_eq!(covered(&[26, 29]), Err(Refusal::UNCOVERED));
    assert_eq!(covered(&[]), Ok(0));
    assert_eq!(covered(&[12]), Ok(10));
}

#[test]
fn the_table() {
    let mut table = Table::new();
    assert!((1..=64).all(|number| table.open(number).is_ok()));
    assert_eq!(table.open(65), Err(Refusal::FULL));
    assert_eq!(table.open(64), Err(Refusal::ALREADY_OPEN));
    assert_eq!(table.finish(1), Ok(()));
    assert_eq!(table.finish(1), Err(Refusal::NOT_OPEN));
    assert_eq!(table.open(65), Ok(()));
    let mut table = Table::new();
    assert_eq!(table.cancel(9), Ok(()));
    assert_eq!(table.open(9), Err(Refusal::CANCELLED));
    let mut twice = [0; Table::LEN];
    (twice[0], twice[5]) = (1, 2);
    assert_eq!(Table::from_bytes(twice).open(9), Err(Refusal::INVALID));
}

/// Document 02's change request 3.
#[test]
fn number_zero() {
    let mut table = Table::new();
    assert_eq!(table.open(0), Err(Refusal::NUMBER_ZERO));
    assert_eq!(table.cancel(0), Err(Refusal::NUMBER_ZERO));
    assert_eq!(table.finish(0), Err(Refusal::NOT_OPEN));
    let mut kept = [0; Table::LEN];
    kept[5] = 1;
    let mut table = Table::from_bytes(kept);
    assert_eq!(table.open(0), Err(Refusal::NUMBER_ZERO));
    let strip = Figures::new(15, 256, 1, 2).expect("these figures fit");
    let (mut word, mut payload) = ([0xEE; 15], [0; 11]);
    let written = job_write(&strip, &table, &[6], &payload, &mut word);
    assert_eq!(written, Err(Refusal::NUMBER_ZERO));
    assert_eq!(encode(&strip, &[6], b"\0\0\0\0ABCDEFG", &mut word), Ok(()));
    assert_eq!(job_read(&strip, &table, &word, &mut payload), Ok(()));
    assert_eq!(payload, *b"\0\0\0\0ABCDEFG");
    assert_eq!(table.cancel(0), Ok(()));
    assert_eq!(table.cancel(0), Err(Refusal::CANCELLED));
}

#[test]
fn refusals_say_what_was_wrong() {
    assert_eq!(Refusal::FULL.number(), 15);
    assert_eq!(
        Refusal::NUMBER_ZERO.to_string(),
        "refused with 17: job number 0 is no job"
    );
    assert_eq!(
        Refusal::UNFIT.to_string(),
        "refused with 2: the figures don't fit"
    );
}
