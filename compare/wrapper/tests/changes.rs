//! Document 02's change requests, through the wrapper.

use burgzemi::{
    cover, decode, deinterleave, encode, interleave, job_read, job_write, move_to_a,
    move_to_larsson, verify, Code, Figures, Larsson, Refusal, Table, MAX_DEPTH,
};

/// Change request 7.
#[test]
fn reinstating() {
    let mut table = Table::new();
    assert_eq!(table.reinstate(7), Err(Refusal::NOT_CANCELLED));
    assert_eq!(table.open(7), Ok(()));
    assert_eq!(table.reinstate(7), Err(Refusal::NOT_CANCELLED));
    let open = table.clone();
    assert_eq!(table.cancel(7), Ok(()));
    assert_eq!(table.cancel(8), Ok(()));
    // It was open, it was absent.
    assert_eq!((table.as_bytes()[0], table.as_bytes()[5]), (2, 3));
    assert_eq!(table.reinstate(7), Ok(()));
    assert_eq!(table.reinstate(8), Ok(()));
    assert_eq!(table, open);
    assert_eq!(
        Refusal::NOT_CANCELLED.to_string(),
        "refused with 20: the job number is not cancelled"
    );
}

#[test]
fn a_reinstated_zero() {
    let strip = Figures::new(15, 256, 1, 2).expect("these figures fit");
    let (mut word, mut payload) = ([0; 15], [0xEE; 11]);
    assert_eq!(encode(&strip, &[6], b"\0\0\0\0ABCDEFG", &mut word), Ok(()));
    for (state, after, read) in [(2, 1, Ok(())), (3, 0, Err(Refusal::NOT_OPEN))] {
        let mut kept = [0; Table::LEN];
        kept[5] = state;
        let mut table = Table::from_bytes(kept);
        let cancelled = job_read(&strip, &table, &word, &mut payload);
        assert_eq!(cancelled, Err(Refusal::CANCELLED));
        assert_eq!(table.reinstate(0), Ok(()));
        assert_eq!(table.as_bytes()[5], after);
        assert_eq!(job_read(&strip, &table, &word, &mut payload), read);
    }
}

#[test]
fn an_unknown_state() {
    let mut kept = [0; Table::LEN];
    kept[0] = 6;
    assert_eq!(Table::from_bytes(kept).reinstate(0), Err(Refusal::INVALID));
}

/// Change request 10.
#[test]
fn holding() {
    let mut table = Table::new();
    assert_eq!(table.hold(7), Err(Refusal::NOT_OPEN));
    assert_eq!(table.release(7), Err(Refusal::NOT_ON_HOLD));
    assert_eq!(table.open(7), Ok(()));
    assert_eq!(table.release(7), Err(Refusal::NOT_ON_HOLD));
    let open = table.clone();
    assert_eq!(table.hold(7), Ok(()));
    assert_eq!(table.as_bytes()[0], 4);
    assert_eq!(table.hold(7), Err(Refusal::ON_HOLD));
    assert_eq!(table.finish(7), Err(Refusal::ON_HOLD));
    assert_eq!(table.open(7), Err(Refusal::ALREADY_OPEN));
    assert_eq!(table.reinstate(7), Err(Refusal::NOT_CANCELLED));
    let held = table.clone();
    assert_eq!(table.cancel(7), Ok(()));
    assert_eq!(table.as_bytes()[0], 5);
    assert_eq!(table.hold(7), Err(Refusal::CANCELLED));
    assert_eq!(table.release(7), Err(Refusal::CANCELLED));
    assert_eq!(table.reinstate(7), Ok(()));
    assert_eq!(table, held);
    assert_eq!(table.release(7), Ok(()));
    assert_eq!(table, open);
    assert_eq!(
        Refusal::ON_HOLD.to_string(),
        "refused with 23: the job number is on hold"
    );
    assert_eq!(Refusal::NOT_ON_HOLD.number(), 24);
}

#[test]
fn a_job_on_hold() {
    let strip = Figures::new(15, 256, 1, 2).expect("these figures fit");
    let (mut word, mut payload) = ([0xEE; 15], *b"\0\0\0\x07ABCDEFG");
    let mut table = Table::new();
    assert_eq!(table.open(7), Ok(()));
    assert_eq!(table.hold(7), Ok(()));
    let written = job_write(&strip, &table, &[6], &payload, &mut word);
    assert_eq!((written, word), (Err(Refusal::ON_HOLD), [0xEE; 15]));
    assert_eq!(encode(&strip, &[6], &payload, &mut word), Ok(()));
    let read = job_read(&strip, &table, &word, &mut payload);
    assert_eq!(read, Err(Refusal::ON_HOLD));
    assert_eq!(table.release(7), Ok(()));
    assert_eq!(job_read(&strip, &table, &word, &mut payload), Ok(()));
}

/// Change request 5.
#[test]
fn side_by_side() {
    let strip = Figures::new(3, 4, 1, 1).expect("these figures fit");
    let words = [0, 1, 2, 3, 0, 1];
    let mut cells = [0xEE; 6];
    assert_eq!(interleave(&strip, 2, &words, &mut cells), Ok(()));
    assert_eq!(cells, [0, 3, 1, 0, 2, 1]);
    let mut back = [0xEE; 6];
    assert_eq!(deinterleave(&strip, 2, &cells, &mut back), Ok(()));
    assert_eq!(back, words);
    for call in [interleave, deinterleave] {
        let mut out = [0xEE; 6];
        for depth in [0, MAX_DEPTH + 1, u32::MAX] {
            let refused = call(&strip, depth, &words, &mut out);
            assert_eq!(refused, Err(Refusal::DEPTH));
        }
        let refused = call(&strip, 3, &words, &mut out);
        assert_eq!(refused, Err(Refusal::LENGTH));
        let refused = call(&strip, 2, &[5; 6], &mut out);
        assert_eq!((refused, out), (Err(Refusal::SYMBOL), [0xEE; 6]));
    }
}

/// A stretch of depth * b cells is worn, at every place.
#[test]
fn a_scratch_across_the_lanes() {
    let strip = Figures::new(15, 256, 1, 2).expect("these figures fit");
    for depth in 1..=MAX_DEPTH as usize {
        let (mut words, mut cells) = (vec![0; depth * 15], vec![0; depth * 15]);
        for worn in 0..=depth * 13 {
            let placements: Vec<_> = (0..depth)
                .map(|lane| {
                    let inside = |i: usize| (worn..worn + 2 * depth).contains(&(i * depth + lane));
                    let map: Vec<u8> = (0..15).map(|i| inside(i) as u8).collect();
                    cover(&strip, &map).expect("the map can be covered")
                })
                .collect();
            for (word, starts) in words.chunks_exact_mut(15).zip(&placements) {
                assert_eq!(encode(&strip, starts, b"ABCDEFGHIJK", word), Ok(()));
            }
            assert_eq!(interleave(&strip, depth as u32, &words, &mut cells), Ok(()));
            cells[worn..worn + 2 * depth].fill(0xFF);
            assert_eq!(
                deinterleave(&strip, depth as u32, &cells, &mut words),
                Ok(())
            );
            for (word, starts) in words.chunks_exact(15).zip(&placements) {
                let mut message = [0; 11];
                assert_eq!(decode(&strip, word, &mut message), Ok(*starts));
                assert_eq!(message, *b"ABCDEFGHIJK");
            }
        }
    }
}

/// Change request 6.
#[test]
fn silent_cells() {
    let strip = Figures::new(15, 16, 1, 2).expect("these figures fit");
    let mut table = Table::new();
    assert_eq!(table.open(7), Ok(()));
    let (mut word, mut payload) = ([0; 15], [0; 5]);
    let written = job_write(&strip, &table, &[6], b"\0\0\0\x07A", &mut word);
    assert_eq!(written, Ok(()));
    for (cell, value, refused) in [
        (6, 16, None),
        (7, 16, None),
        (7, 17, Some(Refusal::SYMBOL)),
        // In the index block, in the message.
        (10, 16, Some(Refusal::SILENT)),
        (14, 16, Some(Refusal::SILENT)),
    ] {
        let mut found = word;
        found[cell] = value;
        let mut message = [0; 11];
        assert_eq!(decode(&strip, &found, &mut message).err(), refused);
        let read = job_read(&strip, &table, &found, &mut payload);
        assert_eq!(read.err(), refused);
    }
    assert_eq!(payload, *b"\0\0\0\x07A");
    assert_eq!(
        encode(&strip, &[6], &[16; 11], &mut word),
        Err(Refusal::SYMBOL)
    );
    assert_eq!(
        Refusal::SILENT.to_string(),
        "refused with 19: a cell without a reading in an index block's head or in the message"
    );
}

#[test]
fn silent_cells_side_by_side() {
    let strip = Figures::new(3, 4, 1, 1).expect("these figures fit");
    let mut out = [0xEE; 6];
    let laid = interleave(&strip, 2, &[4; 6], &mut out);
    assert_eq!((laid, out), (Err(Refusal::SYMBOL), [0xEE; 6]));
    assert_eq!(
        deinterleave(&strip, 2, &[4, 0, 1, 2, 3, 4], &mut out),
        Ok(())
    );
    assert_eq!(out, [4, 1, 3, 0, 2, 4]);
}

/// Change request 13: n 15, q 16 and one run of 2, where each code has a message of 11 symbols.
#[test]
fn words_from_the_frame_maker() {
    checked(Figures::new(15, 16, 1, 2));
    checked(Figures::long(15, 16, 2));
    checked(Figures::larsson(15, 16, 1, 2));
}

fn checked<N: Code>(strip: Result<Figures<N>, Refusal>) {
    let strip = strip.expect("these figures fit");
    let (message, mut word) = ([7; 11], [0; 15]);
    assert_eq!(encode(&strip, &[6], &message, &mut word), Ok(()));
    assert_eq!(verify(&strip, &[6], &message, &word), Ok(true));
    assert_eq!(verify(&strip, &[7], &message, &word), Ok(false));
    assert_eq!(verify(&strip, &[6], &[8; 11], &word), Ok(false));
    for (cell, value) in (0..15).flat_map(|cell| (0..=17).map(move |value| (cell, value))) {
        let mut found = word;
        found[cell] = value;
        let wanted = match value {
            17 => Err(Refusal::SYMBOL),
            _ => Ok(value == word[cell] || cell == 6 || cell == 7),
        };
        assert_eq!(verify(&strip, &[6], &message, &found), wanted);
    }
    for (starts, message, word, refusal) in [
        (&[6, 9][..], &message[..], &word[..], Refusal::LENGTH),
        (&[6], &message[1..], &word, Refusal::LENGTH),
        (&[6], &message, &word[1..], Refusal::LENGTH),
        (&[14], &[16; 11], &[17; 15], Refusal::STARTS),
        (&[6], &[16; 11], &word, Refusal::SYMBOL),
    ] {
        assert_eq!(verify(&strip, starts, message, word), Err(refusal));
    }
}

/// Change request 14: one altered message cell or several, with damage inside the run.
#[test]
fn what_a_slip_can_spoil() {
    let strip = Figures::new(15, 16, 1, 2).expect("these figures fit");
    let cells = [1, 2, 3, 4, 5, 8, 9, 11, 12, 13, 14];
    for slips in 0..1 << cells.len() {
        let (mut message, mut word, mut read) = ([7; 11], [0; 15], [0; 11]);
        assert_eq!(encode(&strip, &[6], &message, &mut word), Ok(()));
        word[6..8].fill(16);
        for (i, cell) in cells
            .iter()
            .enumerate()
            .filter(|(i, _)| slips >> i & 1 == 1)
        {
            message[i] = (i as u8 + 8) % 16;
            word[*cell] = message[i];
        }
        let placement = decode(&strip, &word, &mut read).expect("a slip is read");
        assert_eq!((&placement[..], read), (&[6][..], message));
    }
}

/// Change request 1.
#[test]
fn one_long_run() {
    let strip = Figures::long(20, 2, 5).expect("these figures fit");
    let lens = (strip.word_len(), strip.runs(), strip.message_len());
    assert_eq!((lens, strip.payload_len()), ((20, 1, 10), 1));
    let mut word = [0xEE; 20];
    for (starts, refusal) in [
        (&[][..], Refusal::LENGTH),
        (&[9, 9], Refusal::LENGTH),
        (&[16], Refusal::STARTS),
    ] {
        assert_eq!(encode(&strip, starts, &[1; 10], &mut word), Err(refusal));
    }
    assert_eq!(word, [0xEE; 20]);
    assert_eq!(encode(&strip, &[12], &[1; 10], &mut word), Ok(()));
    assert_eq!(word, b"10111101111100000111".map(|digit| digit - b'0'));
    // Any values up to q inside the run.
    word[12..17].copy_from_slice(&[1, 2, 0, 2, 1]);
    let mut message = [0; 10];
    let placement = decode(&strip, &word, &mut message).expect("a written word is read");
    assert_eq!((&placement[..], message), (&[12][..], [1; 10]));
    // Every cell of the run is worn, or one more.
    let mut map = [0; 20];
    map[12..17].fill(1);
    assert_eq!(cover(&strip, &map).map(|covered| covered[0]), Ok(12));
    map[11] = 1;
    assert_eq!(cover(&strip, &map), Err(Refusal::UNCOVERED));
}

#[test]
fn figures_of_one_long_run() {
    let fits = |n, q, b| Figures::long(n, q, b).map(|f| f.message_len());
    assert_eq!(fits(20, 2, 6), Ok(9));
    assert_eq!(fits(20, 2, 7), Err(Refusal::UNFIT));
    assert_eq!(fits(20, 2, 0), Err(Refusal::INVALID));
    assert_eq!(fits(3, 2, 1), Ok(0));
    assert_eq!(fits(4, 2, 1), Err(Refusal::UNFIT));
    assert_eq!(fits(4096, 256, 1365), Ok(2728));
    assert_eq!(fits(4097, 256, 1365), Err(Refusal::INVALID));
}

#[test]
fn refused_words_of_one_long_run() {
    let strip = Figures::long(20, 2, 5).expect("these figures fit");
    let mut message = [0xEE; 10];
    for (word, refusal) in [
        (b"11111111111111111111", Refusal::PATTERN),
        (b"10121101122222111111", Refusal::SILENT),
        (b"11111101100000111111", Refusal::VALUE),
        (b"11111110111110111111", Refusal::DISAGREES),
        (b"10001101100000111112", Refusal::SILENT),
        (b"10001101130000111111", Refusal::SYMBOL),
    ] {
        let word = word.map(|digit| digit - b'0');
        assert_eq!(decode(&strip, &word, &mut message), Err(refusal));
    }
    assert_eq!(message, [0xEE; 10]);
}

#[test]
fn side_by_side_by_the_other_codes() {
    worn_at_every_place(Figures::long(20, 2, 5), 5);
    worn_at_every_place(Figures::larsson(20, 2, 1, 3), 3);
}

/// A stretch of depth * b cells is worn, at every place of strips with n 20 and q 2.
fn worn_at_every_place<N: Code>(strip: Result<Figures<N>, Refusal>, b: usize) {
    let strip = strip.expect("these figures fit");
    let message = vec![1; strip.message_len()];
    for depth in 1..=MAX_DEPTH as usize {
        let (mut words, mut cells) = (vec![0; depth * 20], vec![0; depth * 20]);
        for worn in 0..=depth * (20 - b) {
            let mut map = vec![0; depth * 20];
            map[worn..worn + b * depth].fill(1);
            let mut maps = vec![0; depth * 20];
            let taken = deinterleave(&strip, depth as u32, &map, &mut maps);
            assert_eq!(taken, Ok(()));
            for (word, map) in words.chunks_exact_mut(20).zip(maps.chunks_exact(20)) {
                let starts = cover(&strip, map).expect("the map can be covered");
                assert_eq!(encode(&strip, &starts, &message, word), Ok(()));
            }
            assert_eq!(interleave(&strip, depth as u32, &words, &mut cells), Ok(()));
            // Cells without a reading.
            cells[worn..worn + b * depth].fill(2);
            let taken = deinterleave(&strip, depth as u32, &cells, &mut words);
            assert_eq!(taken, Ok(()));
            for word in words.chunks_exact(20) {
                let mut read = vec![0; message.len()];
                assert!(decode(&strip, word, &mut read).is_ok());
                assert_eq!(read, message);
            }
        }
    }
    let mut cells = [0xEE; 40];
    for (depth, words, refusal) in [
        (0, &[2; 39][..], Refusal::DEPTH),
        (17, &[2; 39], Refusal::DEPTH),
        (2, &[2; 39], Refusal::LENGTH),
        (2, &[2; 40], Refusal::SYMBOL),
    ] {
        let laid = interleave(&strip, depth, words, &mut cells);
        assert_eq!((laid, cells), (Err(refusal), [0xEE; 40]));
    }
}

/// Job 7 on a strip of 15 cells: refused before it is open, then written as this word, read back from it with its run from 6 on worn, and refused once it is
/// cancelled. The worn word comes back.
fn job_on<N: Code>(strip: &Figures<N>, job: &[u8], run: usize, written: &[u8; 15]) -> [u8; 15] {
    let mut table = Table::new();
    let (mut word, mut payload) = ([0xEE; 15], vec![0xEE; job.len()]);
    let unopened = job_write(strip, &table, &[6], job, &mut word);
    assert_eq!((unopened, word), (Err(Refusal::NOT_OPEN), [0xEE; 15]));
    assert_eq!(table.open(7), Ok(()));
    assert_eq!(job_write(strip, &table, &[6], job, &mut word), Ok(()));
    assert_eq!(word, *written);
    word[6..6 + run].fill(0xFF);
    assert_eq!(job_read(strip, &table, &word, &mut payload), Ok(()));
    assert_eq!(payload, job);
    assert_eq!(table.cancel(7), Ok(()));
    let cancelled = job_read(strip, &table, &word, &mut payload);
    assert_eq!(cancelled, Err(Refusal::CANCELLED));
    word
}

#[test]
fn jobs_with_one_long_run() {
    let strip = Figures::long(15, 256, 5).expect("these figures fit");
    let written = b"\x01\0\0\0\x07\0\0\0\0\0\0ABCD";
    job_on(&strip, b"\0\0\0\x07ABCD", 5, written);
}

/// Change request 8.
#[test]
fn older_trays() {
    let strip = Figures::larsson(20, 2, 1, 3).expect("these figures fit");
    let lens = (strip.word_len(), strip.runs(), strip.message_len());
    assert_eq!((lens, strip.payload_len()), ((20, 1, 7), 0));
    let mut word = [0xEE; 20];
    for (starts, message, refusal) in [
        (&[][..], &[2; 7][..], Refusal::LENGTH),
        (&[9, 12], &[2; 7], Refusal::LENGTH),
        (&[18], &[2; 6], Refusal::LENGTH),
        (&[18], &[2; 7], Refusal::STARTS),
        (&[9], &[2; 7], Refusal::SYMBOL),
    ] {
        assert_eq!(encode(&strip, starts, message, &mut word), Err(refusal));
    }
    assert_eq!(word, [0xEE; 20]);
    assert_eq!(encode(&strip, &[9], &[1; 7], &mut word), Ok(()));
    assert_eq!(word, b"01001111100011101001".map(|digit| digit - b'0'));
    // Any values up to q inside the run.
    word[9..12].copy_from_slice(&[1, 2, 0]);
    let mut message = [0; 7];
    let placement = decode(&strip, &word, &mut message).expect("a written word is read");
    assert_eq!((&placement[..], message), (&[9][..], [1; 7]));
    // Every cell of the run is worn, or one more.
    let mut map = [0; 20];
    map[9..12].fill(1);
    assert_eq!(cover(&strip, &map).map(|covered| covered[0]), Ok(9));
    map[12] = 1;
    assert_eq!(cover(&strip, &map), Err(Refusal::UNCOVERED));
}

#[test]
fn figures_of_older_trays() {
    let fits = |n, q, m, b| Figures::larsson(n, q, m, b).map(|f| f.message_len());
    assert_eq!(fits(20, 2, 1, 4), Err(Refusal::UNFIT));
    assert_eq!(fits(20, 2, 1, 0), Err(Refusal::INVALID));
    assert_eq!(fits(4096, 256, 6, 333), Ok(2042));
    assert_eq!(fits(4096, 256, 6, 334), Err(Refusal::UNFIT));
    assert_eq!(fits(4097, 256, 6, 333), Err(Refusal::INVALID));
    // This code alone, Construction A alone, both.
    assert_eq!(fits(3, 2, 3, 1), Ok(0));
    assert_eq!(Figures::new(3, 2, 3, 1), Err(Refusal::UNFIT));
    assert_eq!(fits(6, 5, 2, 1), Err(Refusal::UNFIT));
    assert!(Figures::new(6, 5, 2, 1).is_ok());
    assert_eq!(fits(3, 4, 1, 1), Ok(0));
    assert!(Figures::new(3, 4, 1, 1).is_ok());
}

#[test]
fn refused_words_of_older_trays() {
    let strip = Figures::larsson(20, 2, 1, 3).expect("these figures fit");
    let mut message = [0xEE; 7];
    for (word, refusal) in [
        (b"01001211100011101011", Refusal::MAJORITY),
        (b"01002111100011101002", Refusal::MAJORITY),
        (b"10010211100011110010", Refusal::VALUE),
        (b"01001210100111111111", Refusal::DISAGREES),
        (b"01001110100111101002", Refusal::DISAGREES),
        (b"01001111100011201001", Refusal::SILENT),
        (b"01001211133311101011", Refusal::SYMBOL),
    ] {
        let word = word.map(|digit| digit - b'0');
        assert_eq!(decode(&strip, &word, &mut message), Err(refusal));
    }
    assert_eq!(message, [0xEE; 7]);
    assert_eq!(
        Refusal::MAJORITY.to_string(),
        "refused with 21: no value is in most of the sub-blocks"
    );
}

/// The run is longer than Construction A takes. The middle of the sub-blocks at 0, 7 and 14 is touched.
#[test]
fn jobs_of_older_trays() {
    assert_eq!(Figures::new(15, 256, 1, 7), Err(Refusal::UNFIT));
    let strip = Figures::larsson(15, 256, 1, 7).expect("these figures fit");
    let written = b"\x06\0\0\0\x07A\0\0\0\0\0\0\0B\x06";
    let word = job_on(&strip, b"\0\0\0\x07AB", 7, written);
    for (sub_blocks, refusal) in [
        ([6, 7, 8], Refusal::MAJORITY),
        ([9, 0, 9], Refusal::VALUE),
        ([6, 6, 7], Refusal::DISAGREES),
    ] {
        let mut found = word;
        (found[0], found[7], found[14]) = (sub_blocks[0], sub_blocks[1], sub_blocks[2]);
        let read = job_read(&strip, &Table::new(), &found, &mut [0; 6]);
        assert_eq!(read, Err(refusal));
    }
}

/// No symbol tells of the one placement that there is, and every word is accepted.
#[test]
fn one_placement_on_an_older_tray() {
    let strip = Figures::larsson(3, 2, 3, 1).expect("these figures fit");
    for number in 0..27u8 {
        let word = [number % 3, number / 3 % 3, number / 9];
        let placement = decode(&strip, &word, &mut []).expect("every word is accepted");
        assert_eq!(placement[..], [0, 1, 2]);
    }
    assert_eq!(decode(&strip, &[0, 3, 0], &mut []), Err(Refusal::SYMBOL));
}

/// The same figures in both codes.
fn both(n: u32, q: u32, m: u32, b: u32) -> (Figures<Larsson>, Figures) {
    let older = Figures::larsson(n, q, m, b).expect("these figures fit");
    (older, Figures::new(n, q, m, b).expect("these figures fit"))
}

/// A table with one job alone.
fn with_job(state: u8, number: u32) -> Table {
    let mut kept = [0; Table::LEN];
    kept[5] = state;
    kept[6..10].copy_from_slice(&number.to_be_bytes());
    Table::from_bytes(kept)
}

/// Change request 9: payloads as long, one of 6 bytes on the older tray and of 5 by Construction A, and of 5 and 7.
#[test]
fn moving_the_racks_over() {
    let table = with_job(1, 7);
    for (n, m, b, starts, old, new) in [
        (
            15,
            1,
            2,
            &[6][..],
            &b"\0\0\0\x07ABCDEFG"[..],
            &b"\0\0\0\x07ABCDEFG"[..],
        ),
        (11, 2, 1, &[2, 5], b"\0\0\0\x07A\0", b"\0\0\0\x07A"),
        (16, 3, 1, &[0, 9, 15], b"\0\0\0\x07A", b"\0\0\0\x07A\0\0"),
    ] {
        let (older, newer) = both(n, 256, m, b);
        let (mut before, mut after) = (vec![0; n as usize], vec![0; n as usize]);
        assert_eq!(encode(&older, starts, old, &mut before), Ok(()));
        assert_eq!(job_write(&newer, &table, starts, new, &mut after), Ok(()));
        let spoilt = |word: &[u8]| {
            let mut word = word.to_vec();
            for &start in starts {
                word[start as usize..start as usize + b as usize].fill(0xFF);
            }
            word
        };
        let mut moved = vec![0xEE; n as usize];
        assert_eq!(
            move_to_a(&older, &table, &spoilt(&before), &mut moved),
            Ok(())
        );
        assert_eq!(moved, after);
        // Spoilt in between, it has the message that it had, and 0 in its runs.
        let back = move_to_larsson(&newer, &table, &spoilt(&after), &mut moved);
        assert_eq!((back, moved), (Ok(()), before));
    }
}

#[test]
fn moved_words() {
    let (older, newer) = both(11, 256, 2, 1);
    let table = with_job(1, 7);
    let mut moved = [0xEE; 11];
    let before = *b"\x0C\0\xFF\0\x0C\xFF\0\x0C\x07A\0";
    assert_eq!(move_to_a(&older, &table, &before, &mut moved), Ok(()));
    assert_eq!(moved, *b"\0\0\0\0\0\0\0\x01\x07\x0DA");
    let after = *b"\0\0\xFF\0\0\xFF\0\x01\x07\x0DA";
    assert_eq!(move_to_larsson(&newer, &table, &after, &mut moved), Ok(()));
    assert_eq!(moved, *b"\x0C\0\0\0\x0C\0\0\x0C\x07A\0");
}

/// Jobs 7 and 0 in each state, with a surplus byte that is 0 or isn't.
#[test]
fn the_state_of_a_moved_job() {
    let (older, newer) = both(11, 256, 2, 1);
    for (state, refused) in [
        (0, Some(Refusal::NOT_OPEN)),
        (1, None),
        (2, Some(Refusal::CANCELLED)),
        (3, Some(Refusal::CANCELLED)),
        (4, Some(Refusal::ON_HOLD)),
        (5, Some(Refusal::CANCELLED)),
    ] {
        for (number, surplus) in [(7, 0), (7, 1), (0, 0), (0, 1)] {
            let table = with_job(state, number.into());
            let payload = [0, 0, 0, number, 1, surplus];
            let (mut strip, mut moved) = ([0; 11], [0xEE; 11]);
            let no_job = (number == 0).then_some(Refusal::NUMBER_ZERO);
            let no_room = (surplus != 0).then_some(Refusal::SURPLUS);
            assert_eq!(encode(&older, &[2, 5], &payload, &mut strip), Ok(()));
            let answer = move_to_a(&older, &table, &strip, &mut moved).err();
            assert_eq!(answer, refused.or(no_room).or(no_job));
            assert_eq!(moved == [0xEE; 11], answer.is_some());
            // The other way each byte has room.
            moved = [0xEE; 11];
            assert_eq!(encode(&newer, &[2, 5], &payload[..5], &mut strip), Ok(()));
            let answer = move_to_larsson(&newer, &table, &strip, &mut moved).err();
            assert_eq!(answer, refused.or(no_job));
            assert_eq!(moved == [0xEE; 11], answer.is_some());
        }
    }
    assert_eq!(
        Refusal::SURPLUS.to_string(),
        "refused with 22: bytes of the payload that have no room on the other strip are not all 0"
    );
}

#[test]
fn figures_of_a_move() {
    let mut moved = [0xEE; 64];
    let table = Table::new();
    // One code alone.
    let older = Figures::larsson(3, 2, 3, 1).expect("these figures fit");
    let answer = move_to_a(&older, &table, &[], &mut moved);
    assert_eq!(answer, Err(Refusal::UNFIT));
    let newer = Figures::new(6, 5, 2, 1).expect("these figures fit");
    let answer = move_to_larsson(&newer, &table, &[], &mut moved);
    assert_eq!(answer, Err(Refusal::UNFIT));
    // 4 bytes by Construction A and 5 on the older tray, 6 and 4, 4 and 4.
    for (n, m) in [(10, 2), (15, 3), (7, 1)] {
        let (older, newer) = both(n, 256, m, 1);
        let answer = move_to_a(&older, &table, &[], &mut moved);
        assert_eq!(answer, Err(Refusal::PAYLOAD));
        let answer = move_to_larsson(&newer, &table, &[], &mut moved);
        assert_eq!(answer, Err(Refusal::PAYLOAD));
    }
    assert_eq!(moved, [0xEE; 64]);
}

/// n 21, q 17, m 1, b 2, start 12: sub-blocks begin at 0, 9 and 19, of which the first two bear the rank; parts begin at 0, 7 and 14, of which the last
/// spells it.
#[test]
fn refused_moves() {
    let (older, newer) = both(21, 17, 1, 2);
    let (mut old, mut new) = ([0; 21], [0; 21]);
    assert_eq!(encode(&older, &[12], &[1; 15], &mut old), Ok(()));
    assert_eq!(encode(&newer, &[12], &[1; 16], &mut new), Ok(()));
    let table = with_job(6, 7);
    let mut moved = [0xEE; 21];
    for (cells, refusal) in [
        (&[(12, 18)][..], Refusal::SYMBOL),
        (&[(0, 3)], Refusal::MAJORITY),
        (&[(0, 17), (20, 12)], Refusal::MAJORITY),
        (&[(0, 1), (1, 3), (9, 1), (10, 3), (14, 17)], Refusal::VALUE),
        (&[(0, 3), (19, 0), (20, 12), (14, 17)], Refusal::DISAGREES),
        (&[(14, 17), (15, 16)], Refusal::SILENT),
        (&[(2, 16)], Refusal::PAYLOAD),
        (&[], Refusal::PAYLOAD),
    ] {
        let mut found = old;
        cells.iter().for_each(|&(at, value)| found[at] = value);
        let answer = move_to_a(&older, &Table::new(), &found, &mut moved);
        assert_eq!((answer, moved), (Err(refusal), [0xEE; 21]), "{cells:?}");
    }
    for (cells, refusal) in [
        (&[(12, 18)][..], Refusal::SYMBOL),
        (&[(0, 1), (15, 17)], Refusal::PATTERN),
        (&[(14, 2), (15, 17)], Refusal::SILENT),
        (&[(14, 2), (15, 3), (20, 17)], Refusal::VALUE),
        (&[(15, 0), (20, 17)], Refusal::DISAGREES),
        (&[(1, 16), (20, 17)], Refusal::SILENT),
        (&[(1, 16)], Refusal::PAYLOAD),
        (&[], Refusal::NOT_OPEN),
    ] {
        let mut found = new;
        cells.iter().for_each(|&(at, value)| found[at] = value);
        let answer = move_to_larsson(&newer, &Table::new(), &found, &mut moved);
        assert_eq!((answer, moved), (Err(refusal), [0xEE; 21]), "{cells:?}");
    }
    for (strip, len) in [(&[18; 20][..], 21), (&[18; 21], 20), (&[18; 22], 21)] {
        let answer = move_to_a(&older, &Table::new(), strip, &mut moved[..len]);
        assert_eq!(answer, Err(Refusal::LENGTH));
        let answer = move_to_larsson(&newer, &Table::new(), strip, &mut moved[..len]);
        assert_eq!(answer, Err(Refusal::LENGTH));
        // A table with an unknown state.
        let answer = move_to_a(&older, &table, strip, &mut moved[..len]);
        assert_eq!(answer, Err(Refusal::INVALID));
        let answer = move_to_larsson(&newer, &table, strip, &mut moved[..len]);
        assert_eq!((answer, moved), (Err(Refusal::INVALID), [0xEE; 21]));
    }
}
