//! What survives: how much of the loss is left after rebuilding, at random loss rates and after bursts, for some profiles of the Code,
//! with columns alone and with rows. Every point comes from runs of the library itself; seeds are fixed, so the picture is the same again.
//!
//!     cargo run --release -- FOLDER
//!
//! writes FOLDER/random-loss.svg and FOLDER/bursts.svg, and prints their figures.
mod chart;
mod loss;

use chart::{Chart, Curve, Scale};
use loss::{Profile, Random};
use std::{env, fs, io, path::Path};

const PROFILES: [(usize, usize, &str); 4] = [(5, 5, "#c0392b"), (10, 5, "#d68910"), (10, 10, "#1e8449"), (20, 5, "#1f618d")];
const RATES: [f64; 12] = [0.001, 0.002, 0.003, 0.005, 0.01, 0.02, 0.03, 0.05, 0.08, 0.1, 0.15, 0.2];

/// Each profile with columns alone, dashed, and with rows.
fn curves(point: &mut dyn FnMut(Profile) -> Vec<(f64, f64)>) -> Vec<Curve> {
    let mut all = Vec::new();
    for (l, d, colour) in PROFILES {
        for rows in [false, true] {
            let name = format!("{l} × {d}, {}", if rows { "columns and rows" } else { "columns" });
            all.push(Curve { name, colour, dashed: !rows, points: point(Profile { l, d, rows }) });
        }
    }
    all
}

fn print(title: &str, unit: &str, curves: &[Curve]) {
    println!("{title}");
    for c in curves {
        let points: Vec<String> = c.points.iter().map(|(x, y)| format!("{:.4}{unit} {:.6}", x, y)).collect();
        println!("  {}: {}", c.name, points.join(", "));
    }
}

fn main() -> io::Result<()> {
    let folder = env::args().nth(1).unwrap_or_else(|| "docs".to_string());
    let mut random = Random(20_261_115);
    let survives =
        curves(&mut |profile| RATES.iter().filter_map(|rate| Some((*rate, loss::after_random(profile, *rate, &mut random)?))).collect());
    print("random loss: packets missing of packets sent", "", &survives);
    let chart = Chart {
        title: "Random loss: what is still missing after rebuilding",
        below: "loss on the line, media and parity alike (a curve begins where enough stays missing to count)",
        beside: "packets missing of packets sent",
        x: Scale::Log { from: 0.001, to: 0.2, marks: &[0.001, 0.002, 0.005, 0.01, 0.02, 0.05, 0.1, 0.2] },
        y: Scale::Log { from: 1e-6, to: 0.2, marks: &[1e-6, 1e-5, 1e-4, 1e-3, 1e-2, 1e-1] },
        diagonal: true,
        curves: survives,
    };
    fs::write(Path::new(&folder).join("random-loss.svg"), chart.svg())?;

    let survives = curves(&mut |profile| (1..=40).map(|b| (b as f64, loss::after_burst(profile, b))).collect());
    print("bursts: share of the burst that stays missing", "", &survives);
    let chart = Chart {
        title: "Bursts: what is still missing after rebuilding",
        below: "media packets lost in a row, every parity packet received",
        beside: "share of the burst that stays missing",
        x: Scale::Plain { from: 0.0, to: 40.0, marks: &[0.0, 5.0, 10.0, 15.0, 20.0, 25.0, 30.0, 35.0, 40.0] },
        y: Scale::Plain { from: 0.0, to: 1.0, marks: &[0.0, 0.2, 0.4, 0.6, 0.8, 1.0] },
        diagonal: false,
        curves: survives,
    };
    fs::write(Path::new(&folder).join("bursts.svg"), chart.svg())
}
