//! Document 02's change request 2: the prescription's stored form and its form in memory, transposing, and the spherical equivalent.

use second::prescription::{
    from_text, spherical_equivalent, to_text, transpose, Eye, Prescription, STORED,
};

fn toric(sphere: i32, cylinder: i32, axis: u8) -> Eye {
    let (sphere, cylinder) = (sphere as f64 / 8.0, cylinder as f64 / 8.0);
    Eye::Toric {
        sphere,
        cylinder,
        axis,
    }
}

/// A prescription with this right eye.
fn with(right: Eye) -> Prescription {
    Prescription {
        right,
        left: Eye::Sphere(-1.25),
        pupil_distance: 62.5,
    }
}

/// An eye's stored bytes, as the right eye and as the left one.
fn stored(eye: Eye) -> Result<[u8; 6], u8> {
    let as_right = to_text(&with(eye)).map(|text| std::array::from_fn(|i| text[i]));
    let prescription = Prescription {
        right: Eye::Plano,
        left: eye,
        pupil_distance: 40.0,
    };
    let as_left = to_text(&prescription).map(|text| std::array::from_fn(|i| text[6 + i]));
    assert_eq!(as_right, as_left);
    as_right
}

/// What an eye is, to the bit.
fn bits(eye: Eye) -> (u8, u64, u64, u8) {
    match eye {
        Eye::Plano => (0, 0, 0, 0),
        Eye::Sphere(power) => (1, power.to_bits(), 0, 0),
        Eye::Toric {
            sphere,
            cylinder,
            axis,
        } => (2, sphere.to_bits(), cylinder.to_bits(), axis),
    }
}

/// The eye that six bytes store.
fn eye(bytes: [u8; 6]) -> Result<Eye, u8> {
    let mut text = [0; STORED];
    text[..6].copy_from_slice(&bytes);
    text[12] = 125;
    from_text(&text).map(|prescription| prescription.right)
}

fn bytes(kind: u8, sphere: i16, cylinder: i16, axis: u8) -> [u8; 6] {
    let [a, b] = sphere.to_be_bytes();
    let [c, d] = cylinder.to_be_bytes();
    [kind, a, b, c, d, axis]
}

#[test]
fn one_prescription() {
    let prescription = Prescription {
        right: toric(-20, 6, 175),
        left: Eye::Sphere(30.0),
        pupil_distance: 63.5,
    };
    let text = [2, 0xFF, 0xEC, 0, 6, 175, 1, 0, 240, 0, 0, 0, 127];
    assert_eq!(to_text(&prescription), Ok(text));
    assert_eq!(from_text(&text), Ok(prescription));
    // Zeros behind it, and nothing else; nothing missing.
    let longer = [&text[..], &[0; 9]].concat();
    assert_eq!(from_text(&longer), Ok(prescription));
    for at in STORED..longer.len() {
        let mut other = longer.clone();
        other[at] = 1;
        assert_eq!(from_text(&other), Err(16));
    }
    assert!((0..STORED).all(|len| from_text(&text[..len]) == Err(16)));
}

/// Every sphere and cylinder that the rules allow, and those just outside.
#[test]
fn every_toric_lens() {
    let axes = [1, 2, 45, 89, 90, 91, 92, 135, 179, 180];
    for sphere in -242..=242i32 {
        for cylinder in -484..=484i32 {
            let within = |power: i32| power.abs() <= 240;
            let allowed = within(sphere) && within(sphere + cylinder) && cylinder != 0;
            let axis = axes[(sphere + 3 * cylinder).rem_euclid(10) as usize];
            let lens = toric(sphere, cylinder, axis);
            let text = bytes(2, sphere as i16, cylinder as i16, axis);
            if !allowed {
                assert_eq!((stored(lens), eye(text)), (Err(16), Err(16)));
                assert_eq!(
                    (transpose(lens), spherical_equivalent(lens)),
                    (Err(16), Err(16))
                );
                continue;
            }
            assert_eq!(stored(lens), Ok(text));
            assert_eq!(eye(text).map(bits), Ok(bits(lens)));
            transposed(lens, sphere, cylinder, axis);
            // Sixteenths.
            let equivalent = spherical_equivalent(lens).expect("the rules allow it");
            assert_eq!(
                (equivalent * 16.0).to_bits(),
                ((2 * sphere + cylinder) as f64).to_bits()
            );
        }
    }
}

fn transposed(lens: Eye, sphere: i32, cylinder: i32, axis: u8) {
    let other = transpose(lens).expect("the rules allow it");
    let turned = if axis <= 90 { axis + 90 } else { axis - 90 };
    assert_eq!(
        bits(other),
        bits(toric(sphere + cylinder, -cylinder, turned))
    );
    assert_eq!(transpose(other).map(bits), Ok(bits(lens)));
    assert_eq!(spherical_equivalent(other), spherical_equivalent(lens));
}

/// Altering the sphere by t eighths moves the equivalent t eighths, altering the cylinder by t half that.
#[test]
fn altered_lenses() {
    let moved =
        |a: Eye, b: Eye| Some(spherical_equivalent(b).ok()? - spherical_equivalent(a).ok()?);
    for (sphere, cylinder) in [
        (0, 1),
        (-240, 480),
        (100, -7),
        (-33, 33),
        (240, -480),
        (1, 1),
    ] {
        let lens = toric(sphere, cylinder, 10);
        let mut seen = 0;
        for t in -720..=720 {
            let by_sphere = moved(lens, toric(sphere + t, cylinder, 10));
            let by_cylinder = moved(lens, toric(sphere, cylinder + t, 10));
            assert!(by_sphere.is_none_or(|by| by == t as f64 / 8.0));
            assert!(by_cylinder.is_none_or(|by| by == t as f64 / 16.0));
            seen += by_sphere.is_some() as u32 + by_cylinder.is_some() as u32;
        }
        assert!(seen > 400, "{seen}");
    }
}

#[test]
fn planos_and_spheres() {
    assert_eq!(stored(Eye::Plano), Ok([0; 6]));
    assert_eq!(transpose(Eye::Plano), Ok(Eye::Plano));
    assert_eq!(spherical_equivalent(Eye::Plano).map(f64::to_bits), Ok(0));
    for eighths in -300..=300 {
        let lens = Eye::Sphere(eighths as f64 / 8.0);
        let allowed = eighths != 0 && (-240..=240).contains(&eighths);
        let text = bytes(1, eighths, 0, 0);
        assert_eq!(stored(lens), if allowed { Ok(text) } else { Err(16) });
        assert_eq!(eye(text), if allowed { Ok(lens) } else { Err(16) });
        assert_eq!(transpose(lens), if allowed { Ok(lens) } else { Err(16) });
        assert_eq!(
            spherical_equivalent(lens),
            if allowed {
                Ok(eighths as f64 / 8.0)
            } else {
                Err(16)
            }
        );
    }
}

#[test]
fn every_kind_and_axis() {
    for kind in 0..=255 {
        for axis in 0..=255 {
            let allowed = kind == 2 && (1..=180).contains(&axis);
            assert_eq!(eye(bytes(kind, 8, -9, axis)).is_ok(), allowed);
            assert_eq!(eye(bytes(kind, 8, 0, axis)).is_ok(), kind == 1 && axis == 0);
            assert_eq!(eye(bytes(kind, 0, 0, axis)).is_ok(), kind == 0 && axis == 0);
            assert_eq!(eye(bytes(kind, 0, 8, axis)).is_ok(), allowed);
        }
    }
    for axis in 0..=255 {
        assert_eq!(
            stored(toric(8, -9, axis)).is_ok(),
            (1..=180).contains(&axis)
        );
    }
    // 16 bits that only a wider sum tells from an allowed pair.
    assert_eq!(eye(bytes(2, 100, i16::MAX, 1)), Err(16));
    assert_eq!(eye(bytes(2, -100, i16::MIN, 1)), Err(16));
    assert_eq!(eye(bytes(2, i16::MIN, i16::MIN, 1)), Err(16));
}

/// Values in memory that no stored power gives.
#[test]
fn other_floats() {
    let tiny = f64::from_bits(1);
    let wrong = [
        -0.0,
        f64::NAN,
        f64::INFINITY,
        f64::NEG_INFINITY,
        0.0625,
        1.0 + f64::EPSILON,
        1.0 - f64::EPSILON,
        tiny,
        -tiny,
        30.125,
        -30.125,
        8192.125,
        f64::MAX,
        f64::MIN,
    ];
    for power in wrong {
        for lens in [
            Eye::Sphere(power),
            Eye::Toric {
                sphere: power,
                cylinder: 1.0,
                axis: 9,
            },
            Eye::Toric {
                sphere: 1.0,
                cylinder: power,
                axis: 9,
            },
        ] {
            // A cylinder may be stronger than any sphere.
            let allowed = matches!(
                lens,
                Eye::Toric {
                    sphere: 1.0,
                    cylinder: -30.125,
                    ..
                }
            );
            assert_eq!(stored(lens).is_ok(), allowed, "{lens:?}");
            assert_eq!(transpose(lens).is_ok(), allowed);
            assert_eq!(spherical_equivalent(lens).is_ok(), allowed);
        }
    }
}

#[test]
fn pupil_distances() {
    for halves in 0..=255u8 {
        let allowed = (80..=160).contains(&halves);
        let mut text = [0; STORED];
        text[12] = halves;
        assert_eq!(
            from_text(&text).map(|p| p.pupil_distance),
            if allowed {
                Ok(halves as f64 / 2.0)
            } else {
                Err(16)
            }
        );
        let memory = Prescription {
            right: Eye::Plano,
            left: Eye::Plano,
            pupil_distance: halves as f64 / 2.0,
        };
        assert_eq!(to_text(&memory), if allowed { Ok(text) } else { Err(16) });
    }
    for pupil_distance in [
        -0.0,
        f64::NAN,
        f64::INFINITY,
        62.25,
        62.5 + 1e-13,
        -62.5,
        32768.0 + 62.5,
        39.75,
        80.25,
    ] {
        let memory = Prescription {
            right: Eye::Plano,
            left: Eye::Plano,
            pupil_distance,
        };
        assert_eq!(to_text(&memory), Err(16), "{pupil_distance}");
    }
}
