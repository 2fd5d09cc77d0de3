//! Eyes and prescriptions, typed and shown.

use burgzemi::{Eye, Prescription};

use crate::trouble::Trouble;
use crate::words::Words;

/// Eighths of a dioptre have three decimals. With no more than these, no other number is read as one of them.
const DECIMALS: usize = 3;
const MOST_DIGITS: usize = 6;

/// A decimal number with a sign or without.
fn decimal(word: &str) -> Option<f64> {
    let digits = word.strip_prefix(['+', '-']).unwrap_or(word);
    let (whole, part) = digits.split_once('.').unwrap_or((digits, ""));
    let all_digits = whole
        .bytes()
        .chain(part.bytes())
        .all(|byte| byte.is_ascii_digit());
    let in_bounds = (1..=MOST_DIGITS).contains(&whole.len()) && part.len() <= DECIMALS;
    (all_digits && in_bounds)
        .then(|| word.parse().ok())
        .flatten()
}

/// A power or a distance; `wanted` says what should stand in the place of another word.
fn number(words: &mut Words, what: &str, wanted: &str) -> Result<f64, Trouble> {
    let word = words.next(what)?;
    decimal(word).ok_or_else(|| {
        Trouble::wrong(
            word,
            format!("{wanted} such as -1.25, with at most three decimals"),
        )
    })
}

/// `plano`, a power, or sphere, cylinder, `x` and axis.
pub fn eye(words: &mut Words) -> Result<Eye, Trouble> {
    if words.skip("plano") {
        return Ok(Eye::Plano);
    }
    let sphere = number(words, "the eye", "an eye is plano, or begins with a power")?;
    if words.peek().and_then(decimal).is_none() {
        return Ok(Eye::Sphere(sphere));
    }
    let cylinder = number(words, "the cylinder", "a cylinder is a power")?;
    if !words.skip("×") {
        words.expect("x")?;
    }
    let axis = words.number("the axis", u32::from(u8::MAX))? as u8;
    Ok(Eye::Toric {
        sphere,
        cylinder,
        axis,
    })
}

/// `R`, an eye, `L`, an eye, `PD` and the pupil distance.
pub fn prescription(words: &mut Words) -> Result<Prescription, Trouble> {
    words.expect("R")?;
    let right = eye(words)?;
    words.expect("L")?;
    let left = eye(words)?;
    words.expect("PD")?;
    let pupil_distance = number(
        words,
        "the pupil distance",
        "the pupil distance is a number",
    )?;
    Ok(Prescription {
        right,
        left,
        pupil_distance,
    })
}

/// A power with its sign and two decimals, or more where it has more.
pub fn power(value: f64) -> String {
    let long = format!("{value:+.4}");
    let least = long.len() - 2;
    let len = long.trim_end_matches('0').len().max(least);
    long[..len].to_owned()
}

pub fn shown(eye: Eye) -> String {
    match eye {
        Eye::Plano => "plano".into(),
        Eye::Sphere(sphere) => power(sphere),
        Eye::Toric {
            sphere,
            cylinder,
            axis,
        } => format!("{} {} × {axis}", power(sphere), power(cylinder)),
    }
}

/// The three fields of a prescription.
pub fn fields(order: &Prescription) -> [String; 3] {
    let distance = order.pupil_distance;
    [
        format!("R {}", shown(order.right)),
        format!("L {}", shown(order.left)),
        format!("PD {distance:.1}"),
    ]
}
