//! The library on live traffic, over UDP on loopback. `tools/live` runs it with FFmpeg, GStreamer and tshark.
//!
//!     live receive CAPTURE L D SEED PORT
//!     live send CAPTURE SEED PORT BACK [aligned|staggered]
//!     live dissect CAPTURE PORT PCAP FIELDS
//!     live mix CAPTURE SEED MIXED
//!     live play CAPTURE PORT TIMES
//!
//! Media, columns and rows go to PORT, PORT + 2 and PORT + 4 of 127.0.0.1. A capture is kept in as many capture files as it needs,
//! CAPTURE.1.cap, CAPTURE.2.cap and so on; what is received is kept in none where CAPTURE is -.
mod dissect;
mod receive;
mod send;
mod traffic;

use std::{env, error::Error, process::ExitCode};
use traffic::Profile;

/// Payload bytes of a media packet at most: seven transport packets.
const PAYLOAD: usize = 7 * TRANSPORT;

/// The bytes of a transport packet.
const TRANSPORT: usize = 188;

type Outcome = Result<(), Box<dyn Error>>;

/// The first check that does not hold, by its words.
fn all_hold(checks: &[(bool, &'static str)]) -> Outcome {
    match checks.iter().find(|(holds, _)| !holds) {
        Some((_, words)) => Err((*words).into()),
        None => Ok(()),
    }
}

fn run(args: &[&str]) -> Outcome {
    match *args {
        ["receive", capture, l, d, seed, port] => {
            receive::run(capture, Profile { l: l.parse()?, d: d.parse()? }, seed.parse()?, port.parse()?)
        }
        ["send", capture, seed, port, back] => send::run(capture, None, seed.parse()?, port.parse()?, back.parse()?),
        ["send", capture, seed, port, back, arrangement] => {
            send::run(capture, Some(send::arrangement(arrangement)?), seed.parse()?, port.parse()?, back.parse()?)
        }
        ["dissect", capture, port, pcap, fields] => dissect::run(capture, port.parse()?, pcap, fields),
        ["mix", capture, seed, mixed] => traffic::mix(capture, seed.parse()?, mixed),
        ["play", capture, port, times] => send::play(capture, port.parse()?, times.parse()?),
        _ => Err("usage: live receive|send|dissect|mix|play ..., as the head of rust/live/src/main.rs says".into()),
    }
}

fn main() -> ExitCode {
    let args: Vec<String> = env::args().skip(1).collect();
    match run(&args.iter().map(String::as_str).collect::<Vec<_>>()) {
        Ok(()) => ExitCode::SUCCESS,
        Err(e) => {
            eprintln!("live: {e}");
            ExitCode::FAILURE
        }
    }
}
