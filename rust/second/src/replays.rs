//! The program that replays a capture file, run on random files, and what it prints compared with the model's text.

use crate::capture::{self, Content, BODY, ENTRIES, ROOM};
use crate::files::{broken, BROKEN};
use crate::model::Window;
use crate::rng::Rng;
use crate::traffic::{alter, offers, profiles, sizes};
use crate::wire::Stretch;
use std::ffi::{OsStr, OsString};
use std::path::Path;
use std::process::Command;
use std::{env, fs, process};

/// How many files are replayed, and how often each of what has to be met is met among them.
const FILES: u64 = 400;
const LEAST: u64 = 3;
/// The program's buffers stay within 64 KiB.
const BUFFERS: usize = 64 * 1024;

/// What was met so far.
#[derive(Default)]
struct Tally {
    files: u64,
    lines: u64,
    rebuilt: u64,
    /// Lines of parity that was refused with 18.
    lies: u64,
    breaches: u64,
    /// Files refused with 21 that are longer than the buffers of the program.
    long: u64,
    openings: [u64; 3],
    too_big: u64,
    /// Windows of the largest size that is replayed, and of the smallest that is not.
    fit: u64,
    just_too_big: u64,
    /// Replayed files of 512 entries, and those with a body of 1,500 bytes.
    full: u64,
    longest: u64,
}

impl Tally {
    fn count(&mut self, file: &[u8], text: &str) {
        self.files += 1;
        self.lines += text.lines().count() as u64;
        match (text.trim_end(), capture::read(file)) {
            (_, Err(_)) => {
                self.breaches += 1;
                self.long += u64::from(file.len() > BUFFERS);
            }
            ("too big", Ok(content)) => {
                self.too_big += 1;
                self.just_too_big += u64::from(room(&content.asked, 0) - content.asked.p <= ROOM);
            }
            (number @ ("1" | "2" | "3"), _) => self.openings[usize::from(number.as_bytes()[0] - b'1')] += 1,
            (_, Ok(content)) => {
                let counts = text.lines().filter_map(|line| line.split_once(' ')?.1.parse::<u64>().ok());
                self.rebuilt += counts.sum::<u64>();
                self.lies += text.lines().filter(|line| *line == "18 0").count() as u64;
                self.fit += u64::from(room(&content.asked, 1) > ROOM);
                self.full += u64::from(content.ports.len() == ENTRIES);
                self.longest += u64::from(content.lengths.contains(&(BODY as u16)));
            }
        }
    }

    fn print(&self) {
        let [one, two, three] = self.openings;
        println!(
            "replays: {} files, {} lines, {} packets rebuilt, 18: {}, 21: {}, {} of them long, refused openings {}, too big: {}, {}",
            self.files,
            self.lines,
            self.rebuilt,
            self.lies,
            self.breaches,
            self.long,
            format_args!("1: {one}, 2: {two}, 3: {three}"),
            self.too_big,
            format_args!(
                "{} of them just so, {} that just fit, {} of 512 entries, {} with a body of 1,500 bytes; 0 differences",
                self.just_too_big, self.fit, self.full, self.longest
            )
        );
    }

    fn enough(&self) -> bool {
        let [one, two, three] = self.openings;
        let all = [self.rebuilt, self.lies, self.long, one, two, three, self.just_too_big, self.fit, self.full, self.longest];
        all.iter().all(|&times| times >= LEAST)
    }
}

/// The bytes of the payloads of a window with so many positions more.
fn room(w: &Window, more: u64) -> u64 {
    (w.n + w.k + more) * w.p
}

// ---- the files ----

/// A window whose numbers are good, on both sides of the size limit.
fn draw_window(rng: &mut Rng) -> Window {
    let (l, d) = if rng.chance(500) { rng.pick(&profiles()) } else { rng.pick(&[(4, 4), (4, 5), (5, 4), (1, 4), (3, 4), (6, 4)]) };
    let fitting: Vec<u64> = sizes().into_iter().filter(|p| (l * d + 1) * p <= ROOM).collect();
    let p = rng.pick(&fitting);
    let most = ROOM / p;
    let total = match rng.below(20) {
        0..=2 => most,
        3 => most + 1,
        4 => rng.between(most + 1, 528),
        _ => rng.between(l * d + 1, most),
    };
    let k = rng.between(total.saturating_sub(400).max(1), (total - l * d).min(128));
    let n = total - k;
    let base = if rng.chance(700) { (65_536 - rng.between(1, n)) as u16 } else { rng.next() as u16 };
    Window { base, l, d, p, n, k, ..Window::default() }
}

/// One or more numbers that no opening takes.
fn spoil_opening(rng: &mut Rng, w: &mut Window) {
    let first = rng.below(3);
    if first == 0 {
        (w.l, w.d) = rng.pick(&[(0, 4), (21, 4), (4, 3), (4, 21), (20, 6), (10, 11), (255, 255), (0, 0)]);
    }
    if first == 1 || rng.chance(300) {
        w.p = rng.pick(&[0, 187, 189, 8 * 188, 8 * 204, 392, 65_535]);
    }
    if first == 2 || rng.chance(300) {
        let few = (w.l * w.d).saturating_sub(1);
        (w.n, w.k) = rng.pick(&[(few, w.k), (401, w.k), (65_535, w.k), (w.n, 0), (w.n, 129), (w.n, 65_535)]);
    }
}

/// A body that no sender makes.
fn garbage(rng: &mut Rng, length: usize) -> Vec<u8> {
    let mut body = vec![0; length];
    rng.fill(&mut body);
    if body.len() >= 2 && rng.chance(500) {
        body[0] = 0x80;
        body[1] = rng.pick(&[33, 96]);
    }
    body
}

/// The traffic of a window: media, column and row parity with losses, repeats and lies, and some that is altered, offered on
/// another port, or garbage.
fn draw_entries(rng: &mut Rng, w: &Window) -> Vec<(u8, Vec<u8>)> {
    let stretch = Stretch::draw(rng, w.base, w.l as usize, w.d as usize, w.p as usize, w.n as usize);
    let (lies, repeats) = (rng.pick(&[0, 0, 300]), rng.pick(&[0, 50, 300]));
    let mut list = offers(rng, &stretch, lies, repeats);
    let unruly = rng.pick(&[0, 0, 50, 200]);
    for (port, datagram) in &mut list {
        if !rng.chance(unruly) {
            continue;
        }
        match rng.below(4) {
            0..=1 => alter(rng, &stretch, *port, datagram),
            2 => {
                let any = rng.index(BODY + 1);
                let length = rng.pick(&[0, 2, 12, 28, any, BODY]);
                *datagram = garbage(rng, length);
            }
            _ => *port = *port % 3 + 1,
        }
        datagram.truncate(BODY);
    }
    if rng.chance(80) && !list.is_empty() {
        list = list.iter().cloned().cycle().take(ENTRIES).collect();
    }
    list.truncate(ENTRIES);
    list
}

/// The file of a seed.
fn draw(seed: u64) -> Vec<u8> {
    let mut rng = Rng::new(seed, 7);
    let mut content = Content { asked: draw_window(&mut rng), ..Content::default() };
    let largest = rng.chance(40);
    let entries = match largest {
        true => (0..ENTRIES).map(|_| (rng.between(1, 3) as u8, garbage(&mut rng, BODY))).collect(),
        false => draw_entries(&mut rng, &content.asked),
    };
    for (port, body) in entries {
        content.ports.push(port);
        content.lengths.push(body.len() as u16);
        content.bodies.extend(body);
    }
    if rng.chance(150) {
        spoil_opening(&mut rng, &mut content.asked);
    }
    if rng.chance(if largest { 700 } else { 150 }) {
        let kind = rng.pick(&BROKEN);
        return broken(&mut rng, &content, kind);
    }
    capture::write(&content)
}

// ---- the program ----

/// Runs the program on a file, which may not be there, and compares what it prints.
fn compare(program: &OsStr, path: &Path, text: &str) -> Result<(), String> {
    let output = Command::new(program).arg(path).output().map_err(|fault| format!("{}: {fault}", program.to_string_lossy()))?;
    if output.stdout == text.as_bytes() && output.status.code().is_some() {
        return Ok(());
    }
    let printed = String::from_utf8_lossy(&output.stdout);
    let (ours, theirs): (Vec<&str>, Vec<&str>) = (text.split('\n').collect(), printed.split('\n').collect());
    let at = ours.iter().zip(&theirs).take_while(|(a, b)| a == b).count();
    let line = |lines: &[&str]| lines.get(at).map_or("the end".to_string(), |line| format!("{line:?}"));
    Err(format!(
        "DIFFERENCE in a replay of {}, line {}: model {}, program {} ({})",
        path.display(),
        at + 1,
        line(&ours),
        line(&theirs),
        output.status
    ))
}

/// Replays the files of the seeds from the first on, in a folder of its own. A file that makes a difference is kept there.
pub fn run(program: &OsStr, first: u64) -> Result<(), String> {
    let folder = env::temp_dir().join(format!("second-replays-{}", process::id()));
    fs::create_dir(&folder).map_err(|fault| format!("{}: {fault}", folder.display()))?;
    let result = replay_all(program, first, &folder);
    // This fails where a file was kept.
    let _ = fs::remove_dir(&folder);
    let tally = result?;
    tally.print();
    if tally.enough() {
        Ok(())
    } else {
        Err(format!("something was met fewer than {LEAST} times"))
    }
}

/// Replays files that are there.
pub fn run_files(program: &OsStr, files: &[OsString]) -> Result<(), String> {
    let mut tally = Tally::default();
    for path in files.iter().map(Path::new) {
        let file = fs::read(path).map_err(|fault| format!("{}: {fault}", path.display()))?;
        let text = capture::replay(&file);
        compare(program, path, &text)?;
        tally.count(&file, &text);
    }
    tally.print();
    Ok(())
}

fn replay_all(program: &OsStr, first: u64, folder: &Path) -> Result<Tally, String> {
    // A file that cannot be opened, and one that cannot be read.
    compare(program, &folder.join("none"), "21\n")?;
    compare(program, folder, "21\n")?;
    let mut tally = Tally::default();
    for seed in (0..FILES).map(|i| first.wrapping_add(i)) {
        let (file, path) = (draw(seed), folder.join(format!("seed-{seed}")));
        let on_disk = |fault: std::io::Error| format!("{}: {fault}", path.display());
        fs::write(&path, &file).map_err(on_disk)?;
        let text = capture::replay(&file);
        compare(program, &path, &text)?;
        tally.count(&file, &text);
        fs::remove_file(&path).map_err(on_disk)?;
    }
    Ok(tally)
}

#[cfg(test)]
mod tests {
    use super::*;

    #[test]
    fn the_files_meet_everything() {
        let mut tally = Tally::default();
        for seed in 1..=FILES {
            let file = draw(seed);
            tally.count(&file, &capture::replay(&file));
        }
        assert!(tally.enough());
    }

    #[test]
    fn what_a_text_says() {
        let mut tally = Tally::default();
        let asked = Window { l: 4, d: 4, p: 1316, n: 23, k: 8, ..Window::default() };
        let file = |asked| capture::write(&Content { asked, ..Content::default() });
        tally.count(&file(asked), "0 0\n0 3\n18 0\npresent 5 of 23\n");
        tally.count(&file(Window { k: 9, ..asked }), "too big\n");
        tally.count(&file(Window { k: 10, ..asked }), "too big\n");
        tally.count(&file(Window { k: 0, ..asked }), "3\n");
        tally.count(&[], "21\n");
        assert_eq!((tally.files, tally.lines, tally.rebuilt, tally.lies, tally.fit), (5, 8, 3, 1, 1));
        assert_eq!((tally.too_big, tally.just_too_big, tally.openings, tally.breaches), (2, 1, [0, 0, 1], 1));
    }
}
