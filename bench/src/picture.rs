//! The picture of comparisons beside their bound, as SVG: for each call a dot, the terms brought in to
//! the right (by powers of ten), its share of the bound upward.
use crate::bound::Family;

/// Width and height of the field, its left and upper edge, and the powers of ten on the axis.
const WIDTH: f64 = 640.0;
const HEIGHT: f64 = 320.0;
const LEFT: f64 = 60.0;
const TOP: f64 = 30.0;
const POWERS: u32 = 6;

const COLOURS: [&str; 4] = ["#1f77b4", "#2ca02c", "#ff7f0e", "#d62728"];

pub struct Picture {
    lines: Vec<String>,
}

fn right(terms: u64) -> f64 {
    LEFT + WIDTH * (terms as f64).log10() / f64::from(POWERS)
}

fn up(share: f64) -> f64 {
    TOP + HEIGHT * (1.0 - share / 1.1)
}

impl Picture {
    pub fn of(families: &[Family]) -> Self {
        let mut picture = Picture { lines: Vec::new() };
        picture.axes();
        for (family, colour) in families.iter().zip(COLOURS) {
            picture.dots(family, colour);
        }
        for (k, (family, colour)) in families.iter().zip(COLOURS).enumerate() {
            let (x, y) = (LEFT + 20.0, TOP + 55.0 + 18.0 * k as f64);
            picture.line(format!(
                "<circle cx=\"{x}\" cy=\"{y}\" r=\"4\" fill=\"{colour}\"/>"
            ));
            picture.text_at(x + 10.0, y + 4.0, "start", family.name);
        }
        picture
    }

    fn line(&mut self, text: String) {
        self.lines.push(text);
    }

    fn text_at(&mut self, x: f64, y: f64, anchor: &str, text: &str) {
        self.line(format!(
            "<text x=\"{x:.0}\" y=\"{y:.0}\" text-anchor=\"{anchor}\">{text}</text>"
        ));
    }

    fn axes(&mut self) {
        let (bottom, end) = (TOP + HEIGHT, LEFT + WIDTH);
        for tenth in [0.0, 0.25, 0.5, 0.75, 1.0] {
            let y = up(tenth);
            let colour = if tenth == 1.0 { "#d00" } else { "#ddd" };
            self.line(format!(
                "<path d=\"M{LEFT} {y:.1}H{end}\" stroke=\"{colour}\"/>"
            ));
            self.text_at(LEFT - 6.0, y + 4.0, "end", &tenth.to_string());
        }
        self.text_at(end, up(1.0) - 6.0, "end", "the bound, 6·N·M comparisons");
        for power in 0..=POWERS {
            let x = right(10u64.pow(power));
            self.text_at(x, bottom + 16.0, "middle", &10u64.pow(power).to_string());
        }
        let middle = LEFT + WIDTH / 2.0;
        self.text_at(middle, bottom + 36.0, "middle", "terms brought in, N");
        self.text_at(LEFT - 40.0, TOP - 12.0, "start", "comparisons / (6·N·M)");
    }

    fn dots(&mut self, family: &Family, colour: &str) {
        let mut path = String::new();
        for cost in family.costs.iter().filter(|c| c.terms > 0) {
            let (x, y) = (right(cost.terms), up(cost.share()));
            path += &format!("M{x:.1} {y:.1}h0");
        }
        self.line(format!(
            "<path d=\"{path}\" stroke=\"{colour}\" stroke-width=\"4\" stroke-linecap=\"round\" stroke-opacity=\"0.5\"/>"
        ));
    }

    pub fn text(&self) -> String {
        let (width, height) = (LEFT + WIDTH + 40.0, TOP + HEIGHT + 50.0);
        format!(
            "<svg xmlns=\"http://www.w3.org/2000/svg\" viewBox=\"0 0 {width} {height}\" font-family=\"sans-serif\" font-size=\"12\">\n<rect width=\"100%\" height=\"100%\" fill=\"white\"/>\n{}\n</svg>\n",
            self.lines.join("\n")
        )
    }
}
