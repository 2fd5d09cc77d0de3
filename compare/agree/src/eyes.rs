//! Eyes within the rules and outside, each transposed and its spherical equivalent taken: every sphere and cylinder around the limits, every axis that a
//! byte holds, kinds that there aren't, values that the kind doesn't use, and powers that are no whole eighths.

use crate::judge::{Judge, Op};
use crate::sides::EyeNumbers;

/// Eighths of a dioptre as dioptres.
pub fn dioptres(eighths: i32) -> f64 {
    eighths as f64 / 8.0
}

/// Whether the rules allow a toric of these eighths.
pub fn allowed(sphere: i32, cylinder: i32, axis: u8) -> bool {
    let within = |power: i32| (-240..=240).contains(&power);
    within(sphere) && within(sphere + cylinder) && cylinder != 0 && (1..=180).contains(&axis)
}

/// Eighths at which the rules draw a line, and their neighbours.
const EDGES: [i32; 17] = [
    -481, -480, -479, -241, -240, -239, -8, -1, 0, 1, 8, 239, 240, 241, 479, 480, 481,
];

pub fn run(judge: &mut Judge) {
    every_toric(judge);
    every_axis(judge);
    every_sphere(judge);
    odd_powers(judge);
    sixteenths(judge);
    lengths(judge);
}

/// Makes both calls, and sees that both accept or neither, and that transposing twice gives the bits of the first. Whether they accepted.
fn both_calls(judge: &mut Judge, eye: EyeNumbers) -> bool {
    let transposed = judge.transpose(eye, 2, 2);
    let equivalent = judge.spherical_equivalent(eye, 1);
    let inputs = || format!("{eye:?}");
    let alike = transposed.number == equivalent.number;
    judge.expect(Op::Transpose, alike, &inputs, "the rules are the same");
    if transposed.number != 0 {
        return false;
    }
    let (marks, powers) = (transposed.out, transposed.also);
    let back = judge.transpose((marks[0], powers[0], powers[1], marks[1]), 2, 2);
    let same = back.number == 0
        && back.out == [eye.0, eye.3]
        && back.also[0].to_bits() == eye.1.to_bits()
        && back.also[1].to_bits() == eye.2.to_bits();
    judge.expect(Op::Transpose, same, &inputs, "twice gives the original");
    true
}

/// Every sphere and cylinder from -500 to 500 eighths, with axes in turn.
fn every_toric(judge: &mut Judge) {
    for sphere in -500..=500i32 {
        for cylinder in -500..=500 {
            let axis = 1 + (7 * sphere + 11 * cylinder).rem_euclid(180) as u8;
            toric(judge, sphere, cylinder, axis);
        }
    }
}

/// A toric in eighths, held against whole numbers.
fn toric(judge: &mut Judge, sphere: i32, cylinder: i32, axis: u8) {
    let eye = (2, dioptres(sphere), dioptres(cylinder), axis);
    let accepted = both_calls(judge, eye);
    let inputs = || format!("{sphere} and {cylinder} eighths at {axis}");
    let right = accepted == allowed(sphere, cylinder, axis);
    judge.expect(Op::Transpose, right, &inputs, "not as the rules have it");
    if !accepted {
        return;
    }
    let transposed = judge.transpose(eye, 2, 2);
    let turned = if axis > 90 { axis - 90 } else { axis + 90 };
    let right = transposed.out == [2, turned]
        && transposed.also[0].to_bits() == dioptres(sphere + cylinder).to_bits()
        && transposed.also[1].to_bits() == dioptres(-cylinder).to_bits();
    judge.expect(Op::Transpose, right, &inputs, "not the other lens");
    let sixteenths = 16.0 * judge.spherical_equivalent(eye, 1).also[0];
    let right = sixteenths.to_bits() == f64::from(2 * sphere + cylinder).to_bits();
    judge.expect(Op::SphericalEquivalent, right, &inputs, "not exact");
}

/// Every axis with every kind that a byte holds, and powers at the lines.
fn every_axis(judge: &mut Judge) {
    for axis in 0..=255 {
        for (sphere, cylinder) in [(0, 1), (240, -1), (-240, 480), (1, -240), (0, 0), (240, 1)] {
            toric(judge, sphere, cylinder, axis);
            for kind in 0..=255 {
                both_calls(judge, (kind, dioptres(sphere), dioptres(cylinder), axis));
            }
        }
    }
}

/// Every sphere from -500 to 500 eighths, alone and with values that it doesn't use; kind 0 likewise.
fn every_sphere(judge: &mut Judge) {
    for sphere in -500..=500 {
        let power = dioptres(sphere);
        for (cylinder, axis) in [(0.0, 0), (-0.0, 0), (0.125, 0), (0.0, 1), (f64::NAN, 0)] {
            let unused = cylinder.to_bits() == 0 && axis == 0;
            let inputs = || format!("{sphere} eighths, then {cylinder} and {axis}");
            for (kind, kept) in [
                (0, sphere == 0),
                (1, sphere != 0 && (-240..=240).contains(&sphere)),
            ] {
                let accepted = both_calls(judge, (kind, power, cylinder, axis));
                let right = accepted == (kept && unused);
                judge.expect(Op::Transpose, right, &inputs, "not as the rules have it");
            }
        }
    }
}

/// Powers that no eye has, or that only a careless conversion takes for eighths: parts of an eighth, neighbours of eighths, minus zero, those that
/// are no finite number, and those that lose their high bits in 16, 32 or 64.
pub fn odd() -> Vec<f64> {
    let mut odd = vec![
        -0.0,
        f64::NAN,
        -f64::NAN,
        f64::from_bits(0x7FF0_0000_0000_0001),
        f64::INFINITY,
        f64::NEG_INFINITY,
        f64::MAX,
        f64::MIN,
        f64::MIN_POSITIVE,
        -f64::MIN_POSITIVE,
        f64::from_bits(1),
        -f64::from_bits(1),
        f64::EPSILON,
        0.1,
        -0.3,
        1e300,
        -1e18,
    ];
    for edge in EDGES {
        let power = dioptres(edge);
        odd.extend([power, power + 0.0625, power.next_up(), power.next_down()]);
        for bits in [13, 16, 29, 32, 61, 64] {
            odd.push(power + 2f64.powi(bits));
        }
    }
    odd
}

/// All pairs of such powers, with each kind and with one that there isn't.
fn odd_powers(judge: &mut Judge) {
    let odd = odd();
    for &sphere in &odd {
        for &cylinder in &odd {
            for eye in [
                (0, sphere, cylinder, 0),
                (1, sphere, cylinder, 0),
                (2, sphere, cylinder, 90),
                (3, sphere, cylinder, 90),
            ] {
                both_calls(judge, eye);
            }
        }
        both_calls(judge, (0, sphere, 0.0, 0));
        both_calls(judge, (1, sphere, 0.0, 0));
    }
}

/// Sixteenths: two of them make whole eighths of a sum, and are refused all the same.
fn sixteenths(judge: &mut Judge) {
    for sphere in -60..=60i32 {
        for cylinder in -60..=60i32 {
            let eye = (2, sphere as f64 / 16.0, cylinder as f64 / 16.0, 90);
            let accepted = both_calls(judge, eye);
            let whole = sphere % 2 == 0 && cylinder % 2 == 0 && cylinder != 0;
            let inputs = || format!("{eye:?}");
            judge.expect(Op::Transpose, accepted == whole, &inputs, "whole eighths");
        }
    }
}

/// Lengths other than two marks, two powers and one power: 3, ahead of 16.
fn lengths(judge: &mut Judge) {
    for eye in [(0, 0.0, 0.0, 0), (2, 1.0, -0.5, 90), (3, 1.0, 0.0, 0)] {
        let inputs = || format!("{eye:?} and lengths from 0 to 3");
        for len in 0..=3 {
            for powers in 0..=3 {
                let right =
                    (judge.transpose(eye, len, powers).number == 3) != (len == 2 && powers == 2);
                judge.expect(Op::Transpose, right, &inputs, "3 is for other lengths");
            }
            let right = (judge.spherical_equivalent(eye, len).number == 3) == (len != 1);
            judge.expect(
                Op::SphericalEquivalent,
                right,
                &inputs,
                "3 is for other lengths",
            );
        }
    }
}
