//! The rates of the codes: how much of a word is message, by the library's own lengths.

use agree::sides::{Numbers, PROVED};

const ALPHABETS: [u32; 2] = [2, 256];

/// k / n, or a dash for figures that don't fit.
fn rate(n: u32, numbers: Numbers) -> String {
    let mut figures = [0; 4];
    match (PROVED.figures)(numbers, &mut figures) {
        0 => format!("{:.4}", figures[2] as f64 / n as f64),
        _ => "-".to_string(),
    }
}

/// The rates of Construction A, of Construction B where there is one burst, and of the Larsson code.
fn rates(n: u32, q: u32, m: u32, b: u32) -> [String; 3] {
    let long = match m {
        1 => rate(n, Numbers::Long((n, q, b))),
        _ => String::new(),
    };
    [
        rate(n, Numbers::Ranked((n, q, m, b))),
        long,
        rate(n, Numbers::Larsson((n, q, m, b))),
    ]
}

/// Prints a line for each n, m and b that some code takes.
pub fn table() {
    println!("k / n of Construction A, Construction B and the Larsson code; a dash where the figures don't fit");
    println!("                     q 2:                      q 256:");
    println!("    n  m    b        A       B Larsson        A       B Larsson");
    for n in [64, 256, 1024, 4096] {
        for m in [1, 3, 6] {
            for b in (0..12).map(|power| 1 << power) {
                let all = ALPHABETS.map(|q| rates(n, q, m, b));
                if all.iter().flatten().any(|rate| rate.contains('.')) {
                    let columns = all.map(|[a, b, larsson]| format!("{a:>8} {b:>7} {larsson:>7}"));
                    println!("{n:>5} {m:>2} {b:>4} {}", columns.join(" "));
                }
            }
        }
    }
}
