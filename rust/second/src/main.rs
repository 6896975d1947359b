//! A second program for document 01 and requests 1, 2, 4, 5 and 6 of document 02, run against the library: random traffic, brute
//! force on small windows, real captures, capture files, senders, windows that move, parity that lies.
//!
//! `second` runs a fixed seeded set, `second --seed S` takes one seed again, `second --seconds N [--seed S]` is the long run, which
//! takes the seeds from S onward. `second --replay PROGRAM [--seed S]` runs the program that replays a capture file, on files of
//! the seeds from S onward, `second --replay PROGRAM FILE ..` on files that are there. A difference is printed with its seed or
//! file, and the exit status is then 1.

mod capture;
mod captures;
mod face;
mod files;
mod flipped;
mod lies;
mod model;
mod moving;
mod pair;
mod passing;
mod received;
mod replays;
mod resent;
mod rng;
mod sender;
mod sender_pair;
mod sending;
mod stopping;
mod traffic;
mod wire;

use std::ffi::OsString;
use std::process::ExitCode;
use std::time::{Duration, Instant};

/// How many seeds of each part the run without arguments takes: 1 to this.
const WINDOWS: u64 = 80_000;
const LISTS: u64 = 20_000;
const PATTERNS: u64 = 250;
const MOVING_LISTS: u64 = 4_000;
const PASSES: u64 = 100;
const FLIPS: u64 = 12;
/// After so many windows comes the content of a capture file, and after so many a sender. In turns a wrong copy of any is found early.
const WINDOWS_A_CONTENT: u64 = 16;
const WINDOWS_A_SENDER: u64 = 50;
/// And one that counts past 65,536: twelve in all, each of six small profiles with each arrangement.
const WINDOWS_A_LONG_SENDER: u64 = 6_600;
/// And a window that moves until its numbers have wrapped two to four times.
const WINDOWS_A_LONG_MOVE: u64 = 10_000;

/// Each number, each kind of spoilt rebuild, of move and of lie, and each limit and breach of a capture file must be met so often in the
/// run without arguments.
const LEAST: u64 = 100;
/// And what can come of a bit that is changed in a captured packet so often.
const LEAST_FLIPPED: u64 = 10;

/// The numbers that a call on a window can answer.
fn numbers() -> impl Iterator<Item = usize> {
    (0..=18).chain([22])
}

/// How often each was met, in one line.
fn times<T: std::fmt::Display>(met: &[(T, u64)]) -> String {
    let each: Vec<String> = met.iter().map(|(what, times)| format!("{what}: {times}")).collect();
    each.join(", ")
}

struct Run {
    traffic: pair::Tally,
    stopping: stopping::Tally,
    moving: stopping::Tally,
    far: u64,
    captures: captures::Tally,
    passing: passing::Tally,
    flipped: flipped::Tally,
    /// The captures, or why they cannot be read: that shows when their turn comes, after the reader of capture files was compared.
    files: Result<Vec<captures::Capture>, String>,
    contents: files::Tally,
    sending: sending::Tally,
    resent: Vec<resent::Found>,
}

impl Run {
    fn new() -> Run {
        let files = captures::load();
        let captures = captures::Tally { captures: files.as_ref().map_or(0, Vec::len) as u64, ..Default::default() };
        Run {
            traffic: Default::default(),
            stopping: Default::default(),
            moving: Default::default(),
            far: 0,
            captures,
            passing: Default::default(),
            flipped: Default::default(),
            files,
            contents: Default::default(),
            sending: Default::default(),
            resent: Vec::new(),
        }
    }

    fn window(&mut self, seed: u64) -> Result<(), String> {
        let before = self.traffic.calls;
        traffic::run(seed, &mut self.traffic).map_err(|text| {
            let calls = self.traffic.calls;
            format!("DIFFERENCE in traffic, seed {seed} (call {calls} of this run, {} of its window): {text}", calls - before)
        })
    }

    fn list(&mut self, seed: u64) -> Result<(), String> {
        stopping::run(seed, &mut self.stopping).map_err(|text| format!("DIFFERENCE in a small window, seed {seed}: {text}"))
    }

    fn long_move(&mut self, seed: u64) -> Result<(), String> {
        let before = self.traffic.calls;
        self.far += 1;
        traffic::run_long(seed, &mut self.traffic).map_err(|text| {
            let calls = self.traffic.calls;
            format!("DIFFERENCE in a long move, seed {seed} (call {calls} of this run, {} of its window): {text}", calls - before)
        })
    }

    fn moving_list(&mut self, seed: u64) -> Result<(), String> {
        stopping::run_moving(seed, &mut self.moving).map_err(|text| format!("DIFFERENCE in a small window that moves, seed {seed}: {text}"))
    }

    fn pass(&mut self, seed: u64) -> Result<(), String> {
        for file in self.files.as_ref().map_err(String::clone)? {
            passing::run(file, seed, &mut self.passing).map_err(|text| format!("DIFFERENCE in a capture passing, seed {seed}: {text}"))?;
        }
        Ok(())
    }

    fn flip(&mut self, seed: u64) -> Result<(), String> {
        for file in self.files.as_ref().map_err(String::clone)? {
            flipped::run(file, seed, &mut self.flipped).map_err(|text| format!("DIFFERENCE in a flipped bit, seed {seed}: {text}"))?;
        }
        Ok(())
    }

    fn pattern(&mut self, seed: u64) -> Result<(), String> {
        for file in self.files.as_ref().map_err(String::clone)? {
            file.run(seed, &mut self.captures).map_err(|text| format!("DIFFERENCE in a capture, seed {seed}: {text}"))?;
        }
        Ok(())
    }

    fn content(&mut self, seed: u64) -> Result<(), String> {
        files::run(seed, &mut self.contents).map_err(|text| format!("DIFFERENCE in a capture file, seed {seed}: {text}"))
    }

    fn sender(&mut self, seed: u64) -> Result<(), String> {
        sending::run(seed, &mut self.sending).map_err(|text| format!("DIFFERENCE in a sender, seed {seed}:\n{text}"))
    }

    fn long_sender(&mut self, seed: u64) -> Result<(), String> {
        sending::run_long(seed, &mut self.sending).map_err(|text| format!("DIFFERENCE in a long sender, seed {seed}:\n{text}"))
    }

    fn resend(&mut self) -> Result<(), String> {
        for file in self.files.as_ref().map_err(String::clone)? {
            self.resent.push(resent::run(file).map_err(|text| format!("DIFFERENCE in a resent capture: {text}"))?);
        }
        Ok(())
    }

    fn print(&self) {
        self.print_traffic();
        let s = &self.stopping;
        println!(
            "small windows: {} lists of {} offers, {} packets lost, {} rebuilt, {} lists with a part left missing, {}",
            s.lists,
            s.offers,
            s.lost,
            s.rebuilt,
            s.partly,
            format_args!("{} parity packets over whole groups; 0 wrong", s.compared)
        );
        let c = &self.captures;
        println!(
            "captures: {} captures, {} patterns in {} windows, {} packets lost, {} rebuilt, {} of them short, {} parity packets compared, {}",
            c.captures,
            c.patterns,
            c.windows,
            c.lost,
            c.rebuilt,
            c.short,
            c.compared,
            format_args!("{} offered to a full table; 0 wrong", c.full)
        );
        let f = &self.flipped;
        println!("  a bit changed: {} parity packets, {} bits, answered {}; 0 differences", f.packets, f.flips, times(&f.met()));
        self.print_moves();
        self.print_files();
        self.print_senders();
    }

    fn print_traffic(&self) {
        let t = &self.traffic;
        let numbers: Vec<(usize, u64)> = numbers().map(|number| (number, t.numbers[number])).collect();
        println!(
            "traffic: {} windows of {} profiles, {} calls compared, answered {}; {} packets rebuilt; 0 differences",
            t.windows,
            t.profiles.len(),
            t.calls,
            times(&numbers),
            t.rebuilt
        );
        let x = &t.spoilt;
        println!(
            "  spoilt: {} parity packets; in {} offers of the packet itself, {} with parity in hand, {} of several, {} that also rebuilt",
            x.all, x.offered, x.in_hand, x.several, x.passed
        );
        println!("  lies: {} refused with 18; {}", t.lies.refused, times(&self.kinds_of_lies()));
    }

    fn print_moves(&self) {
        let m = &self.traffic.moves;
        println!(
            "moves: {} in the traffic, {} windows through several wraps; {} packets written, {} lost, {} records released, {} kept; 0 differences",
            m.done, self.far, m.written, m.lost, m.released, m.kept
        );
        println!("  {}", times(&self.kinds_of_moves()));
        let s = &self.moving;
        println!(
            "  small windows: {} lists of {} offers between {} moves, {} packets lost, {} rebuilt, {} lists with a part left missing, {}",
            s.lists,
            s.offers,
            s.moves,
            s.lost,
            s.rebuilt,
            s.partly,
            format_args!(
                "{} with parity in hand, which {} needed, {} parity packets over whole groups; {} packets written; 0 wrong",
                s.in_hand, s.by_it, s.compared, s.written
            )
        );
        let c = &self.passing;
        println!(
            "  captures in full: {} passes, {} offers, {} moves, {} packets written, {} lost, {} rebuilt, {} given up, {}",
            c.passes,
            c.offers,
            c.moves,
            c.written,
            c.lost,
            c.rebuilt,
            c.given_up,
            format_args!(
                "{} passes without loss in the end; {} offers behind the base, {} to a full table, {} of parity over whole groups; 0 wrong",
                c.whole, c.late, c.full, c.compared
            )
        );
    }

    fn kinds_of_lies(&self) -> Vec<(&'static str, u64)> {
        lies::KINDS.iter().map(|&kind| (kind, self.traffic.lies.kinds.get(kind).copied().unwrap_or(0))).collect()
    }

    fn kinds_of_moves(&self) -> Vec<(&'static str, u64)> {
        pair::KINDS.iter().map(|&kind| (kind, self.traffic.moves.kinds.get(kind).copied().unwrap_or(0))).collect()
    }

    fn print_files(&self) {
        let f = &self.contents;
        println!(
            "capture files: {} contents, {} files read in {} pieces, {} headers and entries compared; 0 differences",
            f.contents, f.files, f.pieces, f.fronts
        );
        for (what, kinds) in f.met() {
            println!("  {what}: {}", times(&kinds));
        }
    }

    fn print_senders(&self) {
        let s = &self.sending;
        println!(
            "senders: {} openings of {} profiles and arrangements, {} past 65,536 packets; {} calls compared, answered {}; 0 differences",
            s.openings,
            s.profiles.len(),
            s.long,
            s.calls,
            times(&s.met())
        );
        let r = &s.received;
        println!(
            "  {} packets taken, {} rows and {} columns sent; {} of them written by {} windows, {} packets lost, {} rebuilt; 0 wrong",
            s.taken, s.rows, s.columns, r.written, r.windows, r.lost, r.rebuilt
        );
        let compared = |kind: usize| self.resent.iter().map(|found| found.compared[kind]).sum::<u64>();
        println!("  captured media sent: {} rows and {} columns of real senders compared; 0 differ", compared(0), compared(1));
        for found in &self.resent {
            println!("    {}", found.words());
        }
    }

    fn fixed(&mut self) -> Result<(), String> {
        for seed in 1..=WINDOWS {
            self.window(seed)?;
            if seed % WINDOWS_A_CONTENT == 0 {
                self.content(seed / WINDOWS_A_CONTENT)?;
            }
            if seed % WINDOWS_A_SENDER == 0 {
                self.sender(seed / WINDOWS_A_SENDER)?;
            }
            if seed % WINDOWS_A_LONG_SENDER == 0 {
                self.long_sender(seed / WINDOWS_A_LONG_SENDER)?;
            }
            if seed % WINDOWS_A_LONG_MOVE == 0 {
                self.long_move(seed / WINDOWS_A_LONG_MOVE)?;
            }
        }
        self.resend()?;
        for seed in 1..=LISTS {
            self.list(seed)?;
        }
        for seed in 1..=MOVING_LISTS {
            self.moving_list(seed)?;
        }
        for seed in 1..=PATTERNS {
            self.pattern(seed)?;
        }
        for seed in 1..=PASSES {
            self.pass(seed)?;
        }
        for seed in 1..=FLIPS {
            self.flip(seed)?;
        }
        self.print();
        self.enough()
    }

    fn enough(&self) -> Result<(), String> {
        let mut kinds = self.contents.met().into_iter().flat_map(|(_, kinds)| kinds);
        if let Some((name, _)) = kinds.find(|&(_, times)| times < LEAST) {
            return Err(format!("of capture files, {name} was met fewer than {LEAST} times"));
        }
        if let Some((name, _)) = self.sending.met().into_iter().find(|&(_, times)| times < LEAST) {
            return Err(format!("of senders, {name} was met fewer than {LEAST} times"));
        }
        if self.sending.profiles.len() != 2 * traffic::profiles().len() {
            return Err("not every profile was met by senders with both arrangements".to_string());
        }
        if let Some((name, _)) = self.kinds_of_moves().into_iter().find(|&(_, times)| times < LEAST) {
            return Err(format!("of moves, {name} was met fewer than {LEAST} times"));
        }
        if let Some((name, _)) = self.kinds_of_lies().into_iter().find(|&(_, times)| times < LEAST) {
            return Err(format!("of parity that lies, {name} was met fewer than {LEAST} times"));
        }
        if let Some((name, _)) = self.flipped.met().into_iter().find(|&(_, times)| times < LEAST_FLIPPED) {
            return Err(format!("of changed bits, {name} was met fewer than {LEAST_FLIPPED} times"));
        }
        let (s, c) = (&self.moving, &self.passing);
        if [s.by_it, s.partly, s.compared, c.rebuilt, c.given_up, c.whole, c.late, c.full, c.compared, self.stopping.compared]
            .iter()
            .any(|&times| times < LEAST)
        {
            return Err(format!("a kind of list between moves, or of passing capture, was met fewer than {LEAST} times"));
        }
        let x = self.traffic.spoilt;
        match numbers().find(|&number| self.traffic.numbers[number] < LEAST) {
            Some(number) => Err(format!("number {number} was met fewer than {LEAST} times")),
            None if [x.offered, x.in_hand, x.several, x.passed, self.captures.short].iter().any(|&times| times < LEAST) => {
                Err(format!("a kind of spoilt rebuild, or a short packet of a capture, was met fewer than {LEAST} times"))
            }
            None if self.traffic.profiles.len() != traffic::profiles().len() => Err("not every profile was met".to_string()),
            None => Ok(()),
        }
    }

    fn again(&mut self, seed: u64) -> Result<(), String> {
        // All parts are shown, also where the first one differs.
        let results = [
            self.window(seed),
            self.list(seed),
            self.pattern(seed),
            self.content(seed),
            self.sender(seed),
            self.long_sender(seed),
            self.long_move(seed),
            self.moving_list(seed),
            self.pass(seed),
            self.flip(seed),
            self.resend(),
        ];
        let faults: Vec<String> = results.into_iter().filter_map(Result::err).collect();
        if faults.is_empty() {
            self.print();
            return Ok(());
        }
        Err(faults.join("\n"))
    }

    fn long(&mut self, length: Duration, first: u64) -> Result<(), String> {
        let start = Instant::now();
        let mut round = 0;
        self.resend()?;
        while start.elapsed() < length {
            for i in 0..200 {
                self.window(first.wrapping_add(round * 200 + i))?;
            }
            for i in 0..12 {
                self.content(first.wrapping_add(round * 12 + i))?;
            }
            for i in 0..50 {
                self.list(first.wrapping_add(round * 50 + i))?;
            }
            for i in 0..20 {
                self.moving_list(first.wrapping_add(round * 20 + i))?;
            }
            self.pattern(first.wrapping_add(round))?;
            self.pass(first.wrapping_add(round))?;
            if round % 8 == 0 {
                self.flip(first.wrapping_add(round / 8))?;
            }
            for i in 0..8 {
                self.sender(first.wrapping_add(round * 8 + i))?;
            }
            if round % 16 == 0 {
                self.long_sender(first.wrapping_add(round / 16))?;
                self.long_move(first.wrapping_add(round / 16))?;
            }
            round += 1;
        }
        self.print();
        Ok(())
    }
}

#[derive(Default)]
struct Arguments {
    seconds: Option<u64>,
    seed: Option<u64>,
    program: Option<OsString>,
    files: Vec<OsString>,
}

fn arguments() -> Option<Arguments> {
    let mut found = Arguments::default();
    let mut rest = std::env::args_os().skip(1);
    while let Some(name) = rest.next() {
        if found.program.is_some() && !name.to_string_lossy().starts_with("--") {
            found.files.push(name);
            continue;
        }
        let value = rest.next()?;
        let number = || value.to_str()?.parse().ok();
        match name.to_str()? {
            "--seconds" => found.seconds = Some(number()?),
            "--seed" => found.seed = Some(number()?),
            "--replay" => found.program = Some(value),
            _ => return None,
        }
    }
    Some(found)
}

fn main() -> ExitCode {
    let Arguments { seconds, seed, program, files } = match arguments() {
        Some(found) if found.seconds.is_none() || found.program.is_none() => found,
        _ => {
            eprintln!("use: second [--seconds N] [--seed S], second --replay PROGRAM [--seed S], second --replay PROGRAM FILE ..");
            return ExitCode::from(2);
        }
    };
    let result = match program {
        Some(program) if files.is_empty() => replays::run(&program, seed.unwrap_or(1)),
        Some(program) => replays::run_files(&program, &files),
        None => match (seconds, seed) {
            (None, None) => Run::new().fixed(),
            (None, Some(seed)) => Run::new().again(seed),
            (Some(seconds), seed) => Run::new().long(Duration::from_secs(seconds), seed.unwrap_or(1_000_000_000)),
        },
    };
    match result {
        Ok(()) => ExitCode::SUCCESS,
        Err(text) => {
            println!("{text}");
            ExitCode::from(1)
        }
    }
}
