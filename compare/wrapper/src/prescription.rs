//! An optician's order as a job's text: both eyes and the pupil distance.

use crate::raw::{self, EyeNumbers, PrescriptionNumbers};
use crate::refusal::Refusal;
use crate::table::Table;
use crate::{Code, Figures, StartBytes};

/// What one eye needs. Powers are dioptres, in whole eighths; a value outside the rules is refused by every call that takes it.
#[derive(Clone, Copy, PartialEq, Debug)]
pub enum Eye {
    Plano,
    /// Its power, from -30 to 30 and not 0.
    Sphere(f64),
    /// Sphere, and sphere plus cylinder, are from -30 to 30; the cylinder is not 0; the axis is 1 to 180 degrees.
    Toric {
        sphere: f64,
        cylinder: f64,
        axis: u8,
    },
}

impl Eye {
    fn numbers(self) -> EyeNumbers {
        match self {
            Eye::Plano => (0, 0.0, 0.0, 0),
            Eye::Sphere(power) => (1, power, 0.0, 0),
            Eye::Toric {
                sphere,
                cylinder,
                axis,
            } => (2, sphere, cylinder, axis),
        }
    }

    /// The eye of numbers that the library answered.
    fn of((kind, sphere, cylinder, axis): EyeNumbers) -> Eye {
        match kind {
            0 => Eye::Plano,
            1 => Eye::Sphere(sphere),
            _ => Eye::Toric {
                sphere,
                cylinder,
                axis,
            },
        }
    }

    /// The same lens with the cylinder's sign changed. Twice gives the bits of the first; a plano or sphere transposes to itself.
    pub fn transpose(self) -> Result<Eye, Refusal> {
        let (mut marks, mut powers) = ([0; 2], [0.0; 2]);
        Refusal::of(raw::transpose(self.numbers(), &mut marks, &mut powers))?;
        Ok(Eye::of((marks[0], powers[0], powers[1], marks[1])))
    }

    /// Sphere plus half the cylinder, exact.
    pub fn spherical_equivalent(self) -> Result<f64, Refusal> {
        let mut power = [0.0];
        Refusal::of(raw::spherical_equivalent(self.numbers(), &mut power))?;
        Ok(power[0])
    }
}

/// Both eyes, and the pupil distance in millimetres: whole halves from 40 to 80.
///
/// ```
/// use burgzemi::{Eye, Figures, Prescription, Refusal, Table};
///
/// let strip = Figures::new(40, 256, 1, 2)?;
/// let mut jobs = Table::new();
/// jobs.open(7)?;
/// let right = Eye::Toric { sphere: -2.5, cylinder: 0.75, axis: 175 };
/// let order = Prescription { right, left: Eye::Sphere(-1.25), pupil_distance: 63.5 };
///
/// let mut word = [0; 40];
/// burgzemi::prescription_write(&strip, &jobs, &[6], 7, &order, &mut word)?;
/// word[6] = 0xFF; // damage inside the run
/// assert_eq!(burgzemi::prescription_read(&strip, &jobs, &word)?, (7, order));
///
/// assert_eq!(right.transpose()?, Eye::Toric { sphere: -1.75, cylinder: -0.75, axis: 85 });
/// assert_eq!(right.spherical_equivalent()?, -2.125);
/// assert_eq!(Eye::Sphere(0.1).transpose(), Err(Refusal::PRESCRIPTION));
/// # Ok::<(), Refusal>(())
/// ```
#[derive(Clone, Copy, PartialEq, Debug)]
pub struct Prescription {
    pub right: Eye,
    pub left: Eye,
    pub pupil_distance: f64,
}

impl Prescription {
    fn numbers(&self) -> PrescriptionNumbers {
        let (right, left) = (self.right.numbers(), self.left.numbers());
        (right, left, self.pupil_distance)
    }
}

/// Writes the word of an open job whose text is a prescription. The payload must have room for it: 17 bytes.
pub fn prescription_write<N: Code>(
    f: &Figures<N>,
    table: &Table,
    starts: &[u16],
    number: u32,
    prescription: &Prescription,
    word: &mut [u8],
) -> Result<(), Refusal> {
    Refusal::of(raw::prescription_write(
        f.numbers,
        table.as_bytes(),
        StartBytes::of(starts).get(),
        number,
        prescription.numbers(),
        word,
    ))
}

/// Reads the found word of an open job whose text is a prescription: the job's number, and the prescription. A value q is a cell without a reading, as
/// in `decode`.
pub fn prescription_read<N: Code>(
    f: &Figures<N>,
    table: &Table,
    word: &[u8],
) -> Result<(u32, Prescription), Refusal> {
    let (mut marks, mut powers) = ([0; 8], [0.0; 5]);
    let answer = raw::prescription_read(f.numbers, table.as_bytes(), word, &mut marks, &mut powers);
    Refusal::of(answer)?;
    let [a, b, c, d, right_kind, right_axis, left_kind, left_axis] = marks;
    let prescription = Prescription {
        right: Eye::of((right_kind, powers[0], powers[1], right_axis)),
        left: Eye::of((left_kind, powers[2], powers[3], left_axis)),
        pupil_distance: powers[4],
    };
    Ok((u32::from_be_bytes([a, b, c, d]), prescription))
}
