//! k/n over b: what a strip has left for its message, by the library's own lengths.

use burgzemi::Refusal;

use crate::figures::Figures;
use crate::svg::Svg;

pub struct Rates {
    n: usize,
    title: String,
    curves: [Curve; 3],
}

struct Curve {
    name: &'static str,
    class: &'static str,
    /// Each b that fits, with its k.
    points: Vec<(usize, usize)>,
}

const WIDTH: f64 = 980.0;
const HEIGHT: f64 = 470.0;
const LEFT: f64 = 70.0;
const RIGHT: f64 = 930.0;
const TOP: f64 = 92.0;
const BOTTOM: f64 = 410.0;
/// Points that are nearer than this on the page are one.
const NEAR: f64 = 1.5;

const STYLE: &str = "\
.grid { fill: none; stroke: #e2e2dc; stroke-width: 1; }
.axis { fill: none; stroke: #555; stroke-width: 1.2; }
.curve { fill: none; stroke-width: 2.4; stroke-linejoin: round; }
.a { stroke: #0072b2; }
.b { stroke: #d55e00; stroke-dasharray: 9 4; }
.larsson { stroke: #009e73; stroke-dasharray: 2.5 3; }
";

impl Rates {
    pub fn of(n: u32, q: u32, m: u32) -> Result<Rates, Refusal> {
        if let Err(refusal @ Refusal::INVALID) = Figures::a(n, q, m, 1) {
            return Err(refusal);
        }
        let curve = |name, class, figures: &dyn Fn(u32) -> Result<Figures, Refusal>| {
            let fitting =
                (1..=n).filter_map(|b| Some((b as usize, figures(b).ok()?.message_len())));
            Curve {
                name,
                class,
                points: fitting.collect(),
            }
        };
        let curves = [
            curve("Construction A", "a", &|b| Figures::a(n, q, m, b)),
            curve("Construction B, one burst", "b", &|b| Figures::b(n, q, b)),
            curve("Larsson code", "larsson", &|b| Figures::larsson(n, q, m, b)),
        ];
        if curves.iter().all(|curve| curve.points.is_empty()) {
            return Err(Refusal::UNFIT);
        }
        let title = format!("Share of a strip that is message, k/n: n {n}, q {q}, m {m}");
        Ok(Rates {
            n: n as usize,
            title,
            curves,
        })
    }

    fn longest(&self) -> usize {
        let all = self.curves.iter().flat_map(|curve| &curve.points);
        all.map(|point| point.0).max().unwrap_or(1)
    }

    /// 1, 2, 5, 10, 20 and so on.
    fn steps(&self) -> Vec<usize> {
        let powers = std::iter::successors(Some(1), |power| Some(power * 10));
        let steps = powers.flat_map(|power| [power, 2 * power, 5 * power]);
        steps.take_while(|b| *b <= self.longest()).collect()
    }

    /// The steps and each curve's last b, a line each.
    pub fn table(&self) -> String {
        let lasts = self.curves.iter().filter_map(|curve| curve.points.last());
        let mut rows: Vec<usize> = self
            .steps()
            .into_iter()
            .chain(lasts.map(|point| point.0))
            .collect();
        rows.sort_unstable();
        rows.dedup();
        let mut lines = vec![
            self.title.clone(),
            "     b        A        B  Larsson".into(),
        ];
        for b in rows {
            let shares = self.curves.iter().map(|curve| {
                let point = curve.points.iter().find(|point| point.0 == b);
                point.map_or("-".into(), |(_, k)| {
                    format!("{:.4}", *k as f64 / self.n as f64)
                })
            });
            let shares: Vec<String> = shares.map(|share: String| format!("{share:>8}")).collect();
            lines.push(format!("{b:>6} {}", shares.join(" ")));
        }
        lines.push("- where the figures don't fit; B has one burst whatever m is".into());
        lines.join("\n")
    }

    fn x(&self, b: usize) -> f64 {
        let widest = (self.longest().max(2) as f64).ln();
        LEFT + (b as f64).ln() / widest * (RIGHT - LEFT)
    }

    fn y(&self, k: usize) -> f64 {
        BOTTOM - k as f64 / self.n as f64 * (BOTTOM - TOP)
    }

    pub fn svg(&self) -> String {
        let mut svg = Svg::new(WIDTH, HEIGHT, &self.title, STYLE);
        svg.text(LEFT, 32.0, "title", &self.title);
        self.axes(&mut svg);
        for curve in &self.curves {
            for piece in self.pieces(curve) {
                svg.polyline(&piece, &format!("curve {}", curve.class));
            }
        }
        self.legend(&mut svg);
        svg.finish()
    }

    fn axes(&self, svg: &mut Svg) {
        for tenth in 0..=10 {
            let y = BOTTOM - f64::from(tenth) / 10.0 * (BOTTOM - TOP);
            svg.line((LEFT, y), (RIGHT, y), "grid");
            if tenth % 2 == 0 {
                svg.text(
                    LEFT - 8.0,
                    y + 4.0,
                    "end",
                    &format!("{:.1}", f64::from(tenth) / 10.0),
                );
            }
        }
        for b in self.steps() {
            let x = self.x(b);
            svg.line((x, TOP), (x, BOTTOM), "grid");
            svg.text(x, BOTTOM + 18.0, "middle", &b.to_string());
        }
        svg.polyline(&[(LEFT, TOP), (LEFT, BOTTOM), (RIGHT, BOTTOM)], "axis");
        svg.text(
            (LEFT + RIGHT) / 2.0,
            BOTTOM + 42.0,
            "middle",
            "b, positions of a burst (logarithmic)",
        );
        svg.text(LEFT - 8.0, TOP - 10.0, "end", "k/n");
    }

    /// A curve breaks where a b doesn't fit.
    fn pieces(&self, curve: &Curve) -> Vec<Vec<(f64, f64)>> {
        let breaks = curve.points.chunk_by(|one, next| one.0 + 1 == next.0);
        breaks
            .map(|piece| {
                let mut drawn: Vec<(f64, f64)> = Vec::new();
                let last = piece.len() - 1;
                for (i, (b, k)) in piece.iter().enumerate() {
                    let x = self.x(*b);
                    if i == last || drawn.last().is_none_or(|point| x - point.0 >= NEAR) {
                        drawn.push((x, self.y(*k)));
                    }
                }
                drawn
            })
            .collect()
    }

    fn legend(&self, svg: &mut Svg) {
        let mut x = LEFT;
        for curve in &self.curves {
            let name = match curve.points.last() {
                Some((b, _)) => format!("{}, to b {b}", curve.name),
                None => format!("{}: none fits", curve.name),
            };
            svg.line(
                (x, 58.0),
                (x + 36.0, 58.0),
                &format!("curve {}", curve.class),
            );
            svg.text(x + 44.0, 62.0, "", &name);
            x += 44.0 + 7.0 * name.len() as f64 + 30.0;
        }
    }
}
