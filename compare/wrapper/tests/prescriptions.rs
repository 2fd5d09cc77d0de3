//! Document 02's change request 2, through the wrapper.

use burgzemi::{
    encode, job_read, job_write, prescription_read, prescription_write, Code, Eye, Figures,
    Prescription, Refusal, Table,
};

fn toric(sphere: f64, cylinder: f64, axis: u8) -> Eye {
    Eye::Toric {
        sphere,
        cylinder,
        axis,
    }
}

const ORDER: Prescription = Prescription {
    right: Eye::Toric {
        sphere: -2.5,
        cylinder: 0.75,
        axis: 175,
    },
    left: Eye::Sphere(30.0),
    pupil_distance: 63.5,
};

/// The bytes that `ORDER` is stored in.
const TEXT: [u8; 13] = [2, 0xFF, 0xEC, 0, 6, 175, 1, 0, 240, 0, 0, 0, 127];

/// One run of 2, with each byte a symbol: K is n - 4.
fn strip(payload: u32) -> Figures {
    Figures::new(payload + 4, 256, 1, 2).expect("these figures fit")
}

fn open(number: u32) -> Table {
    let mut table = Table::new();
    assert_eq!(table.open(number), Ok(()));
    table
}

#[test]
fn there_and_back() {
    let table = open(0x0102_0304);
    for payload in [17, 18, 40] {
        let f = strip(payload);
        let mut word = vec![0; f.word_len()];
        let write = prescription_write(&f, &table, &[6], 0x0102_0304, &ORDER, &mut word);
        assert_eq!(write, Ok(()));
        word[6..8].fill(0xFF);
        let read = prescription_read(&f, &table, &word);
        assert_eq!(read, Ok((0x0102_0304, ORDER)));
        // A plain reading gives the text, zeros behind it.
        let mut bytes = vec![0xEE; payload as usize];
        assert_eq!(job_read(&f, &table, &word, &mut bytes), Ok(()));
        assert_eq!((&bytes[..4], &bytes[4..17]), (&[1, 2, 3, 4][..], &TEXT[..]));
        assert!(bytes[17..].iter().all(|&byte| byte == 0));
    }
}

/// A payload that is long enough, and one that is too short by a byte; on the older tray with a run that Construction A doesn't take.
#[test]
fn by_the_other_codes() {
    assert_eq!(Figures::new(30, 256, 1, 11), Err(Refusal::UNFIT));
    written_or_too_short(Figures::long(30, 256, 10), Figures::long(27, 256, 9));
    written_or_too_short(
        Figures::larsson(30, 256, 1, 11),
        Figures::larsson(29, 256, 1, 11),
    );
}

fn written_or_too_short<N: Code>(
    strip: Result<Figures<N>, Refusal>,
    short: Result<Figures<N>, Refusal>,
) {
    let (strip, short) = (
        strip.expect("these figures fit"),
        short.expect("these figures fit"),
    );
    let table = open(7);
    let mut word = [0; 30];
    let written = prescription_write(&strip, &table, &[8], 7, &ORDER, &mut word);
    assert_eq!(written, Ok(()));
    word[8..18].fill(0xFF);
    assert_eq!(prescription_read(&strip, &table, &word), Ok((7, ORDER)));
    let cut = &mut word[..short.word_len()];
    let written = prescription_write(&short, &table, &[8], 7, &ORDER, cut);
    assert_eq!(written, Err(Refusal::PRESCRIPTION));
}

#[test]
fn lenses() {
    let lens = toric(-2.5, 0.75, 175);
    assert_eq!(lens.transpose(), Ok(toric(-1.75, -0.75, 85)));
    assert_eq!(toric(-1.75, -0.75, 85).transpose(), Ok(lens));
    assert_eq!(
        toric(0.0, 0.125, 90).transpose(),
        Ok(toric(0.125, -0.125, 180))
    );
    assert_eq!(lens.spherical_equivalent(), Ok(-2.125));
    assert_eq!(toric(30.0, -60.0, 1).spherical_equivalent(), Ok(0.0));
    assert_eq!(toric(0.0, -0.125, 1).spherical_equivalent(), Ok(-0.0625));
    for (same, power) in [(Eye::Plano, 0.0), (Eye::Sphere(-30.0), -30.0)] {
        assert_eq!(same.transpose(), Ok(same));
        assert_eq!(same.spherical_equivalent(), Ok(power));
    }
}

#[test]
fn outside_the_rules() {
    let f = strip(17);
    let table = open(7);
    for eye in [
        Eye::Sphere(0.0),
        Eye::Sphere(-0.0),
        Eye::Sphere(30.125),
        Eye::Sphere(0.0625),
        Eye::Sphere(f64::NAN),
        Eye::Sphere(f64::NEG_INFINITY),
        toric(1.0, 0.0, 1),
        toric(-0.0, 1.0, 1),
        toric(1.0, 1.0, 0),
        toric(1.0, 1.0, 181),
        toric(30.0, 0.125, 1),
        toric(0.0625, 0.0625, 1),
    ] {
        assert_eq!(eye.transpose(), Err(Refusal::PRESCRIPTION), "{eye:?}");
        let equivalent = eye.spherical_equivalent();
        assert_eq!(equivalent, Err(Refusal::PRESCRIPTION), "{eye:?}");
        for prescription in [
            Prescription {
                right: eye,
                ..ORDER
            },
            Prescription { left: eye, ..ORDER },
        ] {
            let mut word = [0xEE; 21];
            let write = prescription_write(&f, &table, &[6], 7, &prescription, &mut word);
            assert_eq!((write, word), (Err(Refusal::PRESCRIPTION), [0xEE; 21]));
        }
    }
    for (pupil_distance, wanted) in [
        (39.5, Err(Refusal::PRESCRIPTION)),
        (40.0, Ok(())),
        (62.25, Err(Refusal::PRESCRIPTION)),
        (80.0, Ok(())),
        (80.5, Err(Refusal::PRESCRIPTION)),
    ] {
        let prescription = Prescription {
            pupil_distance,
            ..ORDER
        };
        let write = prescription_write(&f, &table, &[6], 7, &prescription, &mut [0; 21]);
        assert_eq!(write, wanted, "{pupil_distance}");
    }
}

#[test]
fn the_message_says_what_helps() {
    assert_eq!(Refusal::PRESCRIPTION.number(), 16);
    let message = Refusal::PRESCRIPTION.to_string();
    assert!(message.starts_with("refused with 16: no prescription by the rules: "));
    for said in [
        "from -30 to 30",
        "1 to 180",
        "from 40 to 80",
        "17 bytes",
        "a plain job call",
    ] {
        assert!(message.contains(said), "{message}");
    }
    // One line, without the source's indentation.
    assert!(!message.contains("  ") && !message.contains('\n'));
}

#[test]
fn the_writers_refusals() {
    let refused = |f: &Figures, table: &Table, starts: &[u16], number, prescription: &_| {
        let mut word = [0xEE; 21];
        let len = f.word_len();
        let write = prescription_write(f, table, starts, number, prescription, &mut word[..len]);
        assert_eq!(word, [0xEE; 21]);
        write.expect_err("a refusal")
    };
    let bad = Prescription {
        pupil_distance: 0.0,
        ..ORDER
    };
    let mut table = open(7);
    assert_eq!(refused(&strip(4), &table, &[], 7, &bad), Refusal::PAYLOAD);
    assert_eq!(refused(&strip(5), &table, &[], 7, &bad), Refusal::LENGTH);
    assert_eq!(refused(&strip(16), &table, &[19], 7, &bad), Refusal::STARTS);
    assert_eq!(
        refused(&strip(16), &table, &[6], 7, &ORDER),
        Refusal::PRESCRIPTION
    );
    assert_eq!(
        refused(&strip(17), &table, &[6], 0, &bad),
        Refusal::PRESCRIPTION
    );
    assert_eq!(
        refused(&strip(17), &table, &[6], 0, &ORDER),
        Refusal::NUMBER_ZERO
    );
    assert_eq!(
        refused(&strip(17), &table, &[6], 8, &ORDER),
        Refusal::NOT_OPEN
    );
    assert_eq!(table.hold(7), Ok(()));
    assert_eq!(
        refused(&strip(17), &table, &[6], 7, &ORDER),
        Refusal::ON_HOLD
    );
    assert_eq!(table.cancel(7), Ok(()));
    assert_eq!(
        refused(&strip(17), &table, &[6], 7, &ORDER),
        Refusal::CANCELLED
    );
}

#[test]
fn the_readers_refusals() {
    let f = strip(18);
    let mut table = open(7);
    let mut payload = [0; 18];
    payload[3] = 7;
    payload[4..17].copy_from_slice(&TEXT);
    let mut word = [0; 22];
    assert_eq!(job_write(&f, &table, &[6], &payload, &mut word), Ok(()));
    assert_eq!(prescription_read(&f, &table, &word), Ok((7, ORDER)));
    let cut = prescription_read(&f, &table, &word[1..]);
    assert_eq!(cut, Err(Refusal::LENGTH));
    let blank = prescription_read(&f, &table, &[0; 22]);
    assert_eq!(blank, Err(Refusal::PATTERN));
    // A plain job may carry any text, and these are no prescription.
    for (at, byte) in [
        (4, 3),
        (5, 0),
        (7, 1),
        (9, 0),
        (9, 181),
        (10, 2),
        (11, 1),
        (12, 241),
        (13, 1),
        (14, 1),
        (15, 1),
        (16, 79),
        (16, 161),
        (17, 1),
    ] {
        let mut other = payload;
        other[at] = byte;
        assert_eq!(job_write(&f, &table, &[6], &other, &mut word), Ok(()));
        let read = prescription_read(&f, &table, &word);
        assert_eq!(read, Err(Refusal::PRESCRIPTION), "byte {at}");
        let read = prescription_read(&f, &Table::new(), &word);
        assert_eq!(read, Err(Refusal::PRESCRIPTION), "byte {at}");
    }
    assert_eq!(encode(&f, &[6], &payload, &mut word), Ok(()));
    let unknown = prescription_read(&f, &Table::new(), &word);
    assert_eq!(unknown, Err(Refusal::NOT_OPEN));
    assert_eq!(table.hold(7), Ok(()));
    let held = prescription_read(&f, &table, &word);
    assert_eq!(held, Err(Refusal::ON_HOLD));
    assert_eq!(table.cancel(7), Ok(()));
    let cancelled = prescription_read(&f, &table, &word);
    assert_eq!(cancelled, Err(Refusal::CANCELLED));
}
