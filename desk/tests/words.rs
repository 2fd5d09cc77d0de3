//! Words as they are typed and shown: there and back, on seeded random ones.

mod rng;

use burgzemi::{Eye, Prescription};
use desk::words::Words;
use desk::{eyes, hex, job_text};
use rng::Rng;

const ROUNDS: usize = 2000;

fn bytes(rng: &mut Rng) -> Vec<u8> {
    let (len, bound) = (rng.below(12), [128, 256][rng.below(2)]);
    (0..len).map(|_| rng.below(bound) as u8).collect()
}

/// A text is shown in such a way that it can be typed again, as one word of a line.
#[test]
fn a_shown_text_can_be_typed() {
    let mut rng = Rng(1);
    for _ in 0..ROUNDS {
        let text = bytes(&mut rng);
        let line = format!("write {} at", job_text::shown(&text));
        assert!(line.chars().all(|c| !c.is_control()), "{line:?}");
        let mut words = Words::of_line(&line).expect("a line of words");
        assert!(words.skip("write"));
        let typed = job_text::typed(words.next("the text").expect("a word"));
        assert_eq!(typed.expect("a text"), text);
        assert!(words.skip("at") && words.end().is_ok());
    }
    assert_eq!(job_text::shown("Öl 7".as_bytes()), "\"Öl 7\"");
}

#[test]
fn hex_there_and_back() {
    let mut rng = Rng(2);
    for _ in 0..ROUNDS {
        let cells = bytes(&mut rng);
        let shown = hex::shown(&cells);
        for word in [shown.clone(), shown.to_lowercase()] {
            assert_eq!(hex::cells(&word).expect("cells"), cells);
        }
    }
    for wrong in ["0", "0G", "0x00", "00 11", "é", "+1"] {
        assert!(hex::cells(wrong).is_err(), "{wrong}");
    }
}

fn eye(rng: &mut Rng) -> Eye {
    let mut eighths = || (rng.below(481) as f64 - 240.0) / 8.0;
    let (sphere, cylinder) = (eighths(), eighths());
    match rng.below(3) {
        0 => Eye::Plano,
        1 => Eye::Sphere(sphere),
        _ => Eye::Toric {
            sphere,
            cylinder,
            axis: rng.below(256) as u8,
        },
    }
}

/// Every eighth is typed as it is shown, to the bit.
#[test]
fn a_shown_prescription_can_be_typed() {
    let mut rng = Rng(3);
    for _ in 0..ROUNDS {
        let order = Prescription {
            right: eye(&mut rng),
            left: eye(&mut rng),
            pupil_distance: (80 + rng.below(81)) as f64 / 2.0,
        };
        let line = eyes::fields(&order).join(" ");
        let mut words = Words::of_line(&line).expect("a line of words");
        let typed =
            eyes::prescription(&mut words).unwrap_or_else(|trouble| panic!("{line}: {trouble}"));
        assert_eq!(format!("{typed:?}"), format!("{order:?}"));
    }
}

/// What is nearly a number is none, so that nothing is read as another power than was typed.
#[test]
fn no_other_word_is_a_power() {
    for word in [
        "1e0",
        "inf",
        "NaN",
        "1.0000",
        "0.12500000000000000001",
        "1,25",
        "--1",
        "+",
        ".5",
        "",
        "1000000",
        "1_0",
        "０",
    ] {
        let mut words = Words::of_arguments(vec![word.into(), "x".into()]).expect("words");
        assert!(eyes::eye(&mut words).is_err(), "{word}");
    }
}
