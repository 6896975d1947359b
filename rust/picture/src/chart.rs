//! A chart with curves, as SVG.
use std::fmt::Write;

pub enum Scale {
    Plain { from: f64, to: f64, marks: &'static [f64] },
    Log { from: f64, to: f64, marks: &'static [f64] },
}

impl Scale {
    /// Where a value lies, from 0 to 1; what lies below a logarithmic scale, at its foot.
    fn at(&self, v: f64) -> f64 {
        match self {
            Scale::Plain { from, to, .. } => (v - from) / (to - from),
            Scale::Log { from, to, .. } => (v.max(*from) / from).ln() / (to / from).ln(),
        }
    }

    fn marks(&self) -> &'static [f64] {
        match self {
            Scale::Plain { marks, .. } | Scale::Log { marks, .. } => marks,
        }
    }

    fn words(&self, v: f64) -> String {
        match self {
            Scale::Plain { to, .. } if *to > 1.0 => format!("{v}"),
            Scale::Log { .. } if v < 0.0009 => format!("{:.4} %", v * 100.0).replace("0 %", " %").replace("0 %", " %"),
            _ => format!("{} %", (v * 1000.0).round() / 10.0),
        }
    }
}

pub struct Curve {
    pub name: String,
    pub colour: &'static str,
    pub dashed: bool,
    pub points: Vec<(f64, f64)>,
}

pub struct Chart {
    pub title: &'static str,
    pub below: &'static str,
    pub beside: &'static str,
    pub x: Scale,
    pub y: Scale,
    /// A line where y is x: what is missing without parity.
    pub diagonal: bool,
    pub curves: Vec<Curve>,
}

const WIDTH: f64 = 900.0;
const HEIGHT: f64 = 520.0;
const LEFT: f64 = 90.0;
const RIGHT: f64 = 660.0;
const TOP: f64 = 50.0;
const FOOT: f64 = 450.0;

impl Chart {
    fn place(&self, x: f64, y: f64) -> (f64, f64) {
        (LEFT + (RIGHT - LEFT) * self.x.at(x), FOOT - (FOOT - TOP) * self.y.at(y))
    }

    fn line(&self, points: &[(f64, f64)], colour: &str, dashes: &str) -> String {
        let places: Vec<String> = points.iter().map(|(x, y)| self.place(*x, *y)).map(|(x, y)| format!("{x:.1},{y:.1}")).collect();
        format!("<polyline fill='none' stroke='{colour}' stroke-width='2' stroke-dasharray='{dashes}' points='{}'/>\n", places.join(" "))
    }

    pub fn svg(&self) -> String {
        let mut s =
            format!("<svg xmlns='http://www.w3.org/2000/svg' viewBox='0 0 {WIDTH} {HEIGHT}' font-family='sans-serif' font-size='13'>\n");
        s += "<rect width='100%' height='100%' fill='white'/>\n";
        let mut words = |x: f64, y: f64, anchor: &str, more: &str, text: &str| {
            writeln!(s, "<text x='{x:.1}' y='{y:.1}' text-anchor='{anchor}' {more}>{text}</text>").unwrap();
        };
        words(LEFT, 28.0, "start", "font-size='17' font-weight='bold'", self.title);
        words((LEFT + RIGHT) / 2.0, HEIGHT - 22.0, "middle", "", self.below);
        let middle = (TOP + FOOT) / 2.0;
        words(22.0, middle, "middle", &format!("transform='rotate(-90 22 {middle})'"), self.beside);
        for v in self.x.marks() {
            words(LEFT + (RIGHT - LEFT) * self.x.at(*v), FOOT + 20.0, "middle", "", &self.x.words(*v));
        }
        for v in self.y.marks() {
            words(LEFT - 8.0, FOOT - (FOOT - TOP) * self.y.at(*v) + 4.0, "end", "", &self.y.words(*v));
        }
        for (i, c) in self.curves.iter().enumerate() {
            words(RIGHT + 60.0, TOP + 14.0 + 22.0 * i as f64, "start", "", &c.name);
        }
        if self.diagonal {
            words(RIGHT + 60.0, TOP + 14.0 + 22.0 * self.curves.len() as f64, "start", "", "without parity");
        }
        for v in self.x.marks() {
            let x = LEFT + (RIGHT - LEFT) * self.x.at(*v);
            writeln!(s, "<line x1='{x:.1}' y1='{TOP}' x2='{x:.1}' y2='{FOOT}' stroke='#ddd'/>").unwrap();
        }
        for v in self.y.marks() {
            let y = FOOT - (FOOT - TOP) * self.y.at(*v);
            writeln!(s, "<line x1='{LEFT}' y1='{y:.1}' x2='{RIGHT}' y2='{y:.1}' stroke='#ddd'/>").unwrap();
        }
        let mut key = |i: usize, colour: &str, dashes: &str| {
            let y = TOP + 10.0 + 22.0 * i as f64;
            let (x1, x2) = (RIGHT + 18.0, RIGHT + 52.0);
            writeln!(s, "<line x1='{x1}' y1='{y}' x2='{x2}' y2='{y}' stroke='{colour}' stroke-width='2' stroke-dasharray='{dashes}'/>")
                .unwrap();
        };
        for (i, c) in self.curves.iter().enumerate() {
            key(i, c.colour, if c.dashed { "6 4" } else { "none" });
        }
        if self.diagonal {
            key(self.curves.len(), "#888", "2 3");
        }
        for c in &self.curves {
            s += &self.line(&c.points, c.colour, if c.dashed { "6 4" } else { "none" });
        }
        if self.diagonal {
            let ends: Vec<(f64, f64)> = self.x.marks().iter().map(|v| (*v, *v)).collect();
            s += &self.line(&ends, "#888", "2 3");
        }
        s + "</svg>\n"
    }
}
