//! The prescription calls. An eye is its kind (0 plano, 1 sphere, 2 toric), its powers in dioptres and its axis in degrees, with 0 for what the kind
//! doesn't use; what is answered stands in bytes, `marks`, and in doubles, `powers`.

use super::{job_call, write_with, Numbers};
use crate::job::has_room;
use crate::prescription::{self, Eye, Prescription};

/// Kind, sphere, cylinder and axis.
pub type EyeNumbers = (u8, f64, f64, u8);
/// Right eye, left eye, and the pupil distance in millimetres.
pub type PrescriptionNumbers = (EyeNumbers, EyeNumbers, f64);

/// The eye that numbers tell of. Refusal 16 for another kind, or a value other than plus zero that the kind doesn't use.
fn eye_of((kind, sphere, cylinder, axis): EyeNumbers) -> Result<Eye, u8> {
    let unused = |power: f64| power.to_bits() == 0;
    match kind {
        0 if unused(sphere) && unused(cylinder) && axis == 0 => Ok(Eye::Plano),
        1 if unused(cylinder) && axis == 0 => Ok(Eye::Sphere(sphere)),
        2 => Ok(Eye::Toric {
            sphere,
            cylinder,
            axis,
        }),
        _ => Err(16),
    }
}

/// Kind and axis, and sphere and cylinder.
fn parts(eye: Eye) -> ([u8; 2], [f64; 2]) {
    match eye {
        Eye::Plano => ([0, 0], [0.0, 0.0]),
        Eye::Sphere(power) => ([1, 0], [power, 0.0]),
        Eye::Toric {
            sphere,
            cylinder,
            axis,
        } => ([2, axis], [sphere, cylinder]),
    }
}

/// Refusals 3 16.
pub fn transpose(eye: EyeNumbers, marks: &mut [u8], powers: &mut [f64]) -> u8 {
    if marks.len() != 2 || powers.len() != 2 {
        return 3;
    }
    match eye_of(eye).and_then(prescription::transpose) {
        Ok(eye) => {
            let (kind_axis, sphere_cylinder) = parts(eye);
            marks.copy_from_slice(&kind_axis);
            powers.copy_from_slice(&sphere_cylinder);
            0
        }
        Err(refusal) => refusal,
    }
}

/// Refusals 3 16.
pub fn spherical_equivalent(eye: EyeNumbers, power: &mut [f64]) -> u8 {
    if power.len() != 1 {
        return 3;
    }
    match eye_of(eye).and_then(prescription::spherical_equivalent) {
        Ok(equivalent) => {
            power[0] = equivalent;
            0
        }
        Err(refusal) => refusal,
    }
}

/// A prescription outside the rules, for numbers that tell of none: it is refused where they are.
const NONE: Prescription = Prescription {
    right: Eye::Plano,
    left: Eye::Plano,
    pupil_distance: 0.0,
};

fn prescription_of((right, left, pupil_distance): PrescriptionNumbers) -> Result<Prescription, u8> {
    Ok(Prescription {
        right: eye_of(right)?,
        left: eye_of(left)?,
        pupil_distance,
    })
}

pub fn prescription_write(
    numbers: impl Numbers,
    table: &[u8],
    starts: &[u8],
    number: u32,
    prescription: PrescriptionNumbers,
    word: &mut [u8],
) -> u8 {
    let prescription = prescription_of(prescription).unwrap_or(NONE);
    write_with(numbers, table, starts, |f, book, starts| {
        prescription::write_prescription(f, book, number, &prescription, starts, word)
    })
}

/// As `marks` come the job number, high byte first, and kind and axis of the right and of the left eye; as `powers` sphere and cylinder of the right and
/// of the left eye, and the pupil distance.
pub fn prescription_read(
    numbers: impl Numbers,
    table: &[u8],
    word: &[u8],
    marks: &mut [u8],
    powers: &mut [f64],
) -> u8 {
    job_call(numbers.try_into(), has_room, table, |f, book| {
        if marks.len() != 8 || powers.len() != 5 {
            return 3;
        }
        match prescription::read_prescription(f, book, word) {
            Ok((job, prescription)) => {
                put_prescription(job, &prescription, marks, powers);
                0
            }
            Err(refusal) => refusal,
        }
    })
}

fn put_prescription(job: u32, prescription: &Prescription, marks: &mut [u8], powers: &mut [f64]) {
    let (right, left) = (parts(prescription.right), parts(prescription.left));
    marks[..4].copy_from_slice(&job.to_be_bytes());
    marks[4..6].copy_from_slice(&right.0);
    marks[6..].copy_from_slice(&left.0);
    powers[..2].copy_from_slice(&right.1);
    powers[2..4].copy_from_slice(&left.1);
    powers[4] = prescription.pupil_distance;
}
