//! How fast the library is, with payloads of full length, against yardsticks that are measured in the same run. Every figure is the median of many runs; the buffers are
//! said beside each. Run it by tools/bench, on a machine that does nothing else.
mod plain;
mod prompeg;
mod traffic;

use congaveil::capture::{self, Capture, Port, ENTRIES_MAX, FRONT_MAX};
use congaveil::{move_room, Outer, Receiver, Refusal, SetUp, Taken, MEDIA_HEADER, PARITY_HEADER};
use congaveil::{room_for, Arrangement, ParityStreams, Sender, SenderSetUp};
use plain::Aligned;
use prompeg::{Build, Prompeg, FFMPEG, VECTORS};
use std::{hint::black_box, time::Instant};
use traffic::{media, parity, Stretch};

/// The median time of a thing, in nanoseconds; each run is made ready by another, which is not timed.
fn median<T, R>(runs: usize, mut ready: impl FnMut() -> T, mut thing: impl FnMut(&mut T) -> R) -> f64 {
    let mut times: Vec<f64> = (0..runs)
        .map(|_| {
            let mut with = ready();
            let start = Instant::now();
            black_box(thing(&mut with));
            start.elapsed().as_nanos() as f64
        })
        .collect();
    times.sort_by(f64::total_cmp);
    times[runs / 2]
}

/// An offer that rebuilt so many.
fn taken(rebuilt: usize) -> Result<Taken, Refusal> {
    Ok(Taken { rebuilt, spoilt: 0 })
}

fn open(l: usize, d: usize, payload: usize, positions: usize, records: usize) -> Receiver {
    Receiver::open(SetUp { base: 65_500, l, d, payload, positions, records, ssrc: 1 }).unwrap()
}

/// A receiver with every packet of its window but those of some positions.
fn filled(stretch: Stretch, l: usize, d: usize, positions: usize, records: usize, but: &dyn Fn(usize) -> bool) -> (Receiver, Stretch) {
    let mut receiver = open(l, d, stretch.payload, positions, records);
    for i in (0..positions).filter(|i| !but(*i)) {
        receiver.media(&media(&stretch, i)).unwrap();
    }
    (receiver, stretch)
}

/// The 20 parity packets of a 10 × 10 matrix, each with room for the largest.
fn written(receiver: &Receiver) -> Vec<[u8; PARITY_HEADER + 1316]> {
    let mut out = vec![[0; PARITY_HEADER + 1316]; 20];
    write_all(receiver, &mut out);
    out
}

fn write_all(receiver: &Receiver, out: &mut [[u8; PARITY_HEADER + 1316]]) {
    let number = |i: usize| 65_500u16.wrapping_add(i as u16);
    for i in 0..10 {
        receiver.write_column(number(i), Outer::default(), &mut out[i]).unwrap();
        receiver.write_row(number(10 * i), Outer::default(), &mut out[10 + i]).unwrap();
    }
}

fn writes(receiver: &Receiver) -> f64 {
    let mut out = written(receiver);
    median(2001, || (), |_| write_all(receiver, &mut out))
}

/// All 20 parity packets of a 10 × 10 matrix, P = 1,316: 100 payloads one after the other, 20 outputs of 1,344 bytes.
fn writing() {
    const P: usize = 1316;
    let (receiver, stretch) = filled(Stretch::full(P), 10, 10, 100, 40, &|_| false);
    let payloads: Vec<u8> = (0..100).flat_map(|i| stretch.payload(i)).collect();
    let ours = writes(&receiver);
    let out = written(&receiver);
    let mut sums = vec![[0u8; P]; 20];
    let run_time =
        median(201, || (), |_| plain::parity_at_run_time(black_box(&payloads), black_box(10), black_box(10), black_box(P), &mut sums));
    for i in 0..20 {
        assert_eq!(sums[i], out[i][PARITY_HEADER..], "parity {i}");
    }
    let constants = median(2001, || (), |_| plain::parity_of_constants::<10, 10, P>(black_box(&payloads), &mut sums));
    for i in 0..20 {
        assert_eq!(sums[i], out[i][PARITY_HEADER..], "parity {i}");
    }
    let mut aligned = [Aligned([0; 1344]); 100];
    for (to, from) in aligned.iter_mut().zip(payloads.chunks_exact(P)) {
        to.0[..P].copy_from_slice(from);
    }
    let mut by_isal = [Aligned([0; 1344]); 20];
    let isal = median(2001, || (), |_| plain::parity_by_isal(black_box(&aligned), 10, 10, P, &mut by_isal));
    for i in 0..20 {
        assert_eq!(by_isal[i].0[..P], out[i][PARITY_HEADER..], "parity {i}");
    }
    println!("writing the 20 parity packets of a 10 x 10 matrix, P 1316, n 100, K 40, headers included");
    println!("  ours                                        {ours:9.0} ns");
    println!("  plain loops, L, D and P at run time         {run_time:9.0} ns   ours is {:.3} of it", ours / run_time);
    println!("  plain loops, L, D and P constants           {constants:9.0} ns   ours is {:.2} of it", ours / constants);
    println!("  ISA-L's xor_gen, payloads aligned to 32     {isal:9.0} ns   ours is {:.2} of it", ours / isal);
}

/// A media packet in good weather: every packet of the window in turn, none lost; the store and the datagrams are the working set.
fn good_weather(positions: usize, records: usize, stretch: Stretch) -> (f64, f64) {
    let p = stretch.payload;
    let datagrams: Vec<Vec<u8>> = (0..positions).map(|i| media(&stretch, i)).collect();
    let each = median(
        501,
        || open(10, 10, p, positions, records),
        |r| {
            for g in &datagrams {
                r.media(g).unwrap();
            }
        },
    ) / positions as f64;
    let mut store = vec![0u8; positions * p];
    let copy = median(
        501,
        || (),
        |_| {
            for (g, to) in datagrams.iter().zip(store.chunks_exact_mut(p)) {
                let payload = &black_box(g)[12..];
                to[..payload.len()].copy_from_slice(payload);
            }
        },
    ) / positions as f64;
    (each, copy)
}

/// A packet that rebuilds one other: the parity of a row of NA = L packets waits for two.
fn rebuilds_one(na: usize, stretch: Stretch) -> f64 {
    let (mut waiting, stretch) = filled(stretch, na, 5, 100, 40, &|i| i < 2);
    assert_eq!(waiting.row(&parity(&stretch, na, 5, true, 0)), taken(0));
    let late = media(&stretch, 0);
    median(1001, || waiting.clone(), |r| assert_eq!(r.media(&late), taken(1)))
}

/// A row parity packet that finds its whole group present and is compared with it, and one that finds one missing and rebuilds it, each into
/// a copy of the store made just before.
fn compares(na: usize, stretch: fn(usize) -> Stretch, p: usize) -> (f64, f64) {
    let (whole, _) = filled(stretch(p), na, 5, 100, 40, &|_| false);
    let (but_one, stretch) = filled(stretch(p), na, 5, 100, 40, &|i| i == 0);
    let row = parity(&stretch, na, 5, true, 0);
    let compared = median(1001, || whole.clone(), |r| assert_eq!(r.row(&row), taken(0)));
    (compared, median(1001, || but_one.clone(), |r| assert_eq!(r.row(&row), taken(1))))
}

/// A late packet that sets off `chain` rebuilds: every third packet is lost, and a row of four waits for each two neighbours.
fn rebuilds_many(chain: usize, n: usize, k: usize, p: usize) -> f64 {
    let (mut waiting, stretch) = filled(Stretch::full(p), 4, 4, n, k, &|i| i % 3 == 0 && i <= 3 * chain);
    for i in 0..chain {
        assert_eq!(waiting.row(&parity(&stretch, 4, 4, true, 3 * i)), taken(0));
    }
    let late = media(&stretch, 0);
    median(301, || waiting.clone(), |r| assert_eq!(r.media(&late), taken(chain)))
}

/// A parity packet that is held: two of its group are missing.
fn holds(k: usize, p: usize) -> f64 {
    let (waiting, stretch) = filled(Stretch::full(p), 10, 10, 200, k, &|i| i < 2);
    let row = parity(&stretch, 10, 10, true, 0);
    median(1001, || waiting.clone(), |r| assert_eq!(r.row(&row), taken(0)))
}

/// A receiver with `used` records in use: rows of four that start at every third position, of which two in three are missing.
fn waiting(n: usize, k: usize, used: usize, p: usize) -> (Receiver, Stretch) {
    let (mut receiver, stretch) = filled(Stretch::full(p), 4, 4, n, k, &|i| (i % 3 != 2 && i < 3 * used + 1) || i == n - 1);
    for i in 0..used {
        assert_eq!(receiver.row(&parity(&stretch, 4, 4, true, 3 * i)), taken(0));
    }
    (receiver, stretch)
}

/// A media packet that rebuilds nothing, with some records in use.
fn stores(n: usize, k: usize, used: usize, p: usize) -> f64 {
    let (receiver, stretch) = waiting(n, k, used, p);
    let last = media(&stretch, n - 1);
    median(1001, || receiver.clone(), |r| assert_eq!(r.media(&last), taken(0)))
}

/// A row parity packet that finds none of its group missing, with some records in use.
fn finds_none(n: usize, k: usize, used: usize, p: usize) -> f64 {
    let (mut receiver, stretch) = waiting(n, k, used, p);
    receiver.media(&media(&stretch, n - 1)).unwrap();
    let row = parity(&stretch, 4, 4, true, n - 4);
    median(1001, || (), |_| assert_eq!(receiver.row(&row), taken(0)))
}

/// A datagram that is refused by its length, after the store was found in order.
fn refuses(n: usize, k: usize) -> f64 {
    let (mut receiver, _) = filled(Stretch::full(188), 10, 10, n, k, &|_| false);
    let short = [0u8; 11];
    median(
        1001,
        || (),
        |_| {
            for _ in 0..100 {
                assert_eq!(receiver.media(&short), Err(Refusal::ShortDatagram));
            }
        },
    ) / 100.0
}

/// A move by so many positions of a full window of 200, L 10, D 10, P 1,316, and a memmove of the same bytes: each payload that leaves to
/// its place in the output, and those that stay down. The move also clears the positions that are new, which the memmove does not. With
/// `fresh` the store is a copy made just before, else the one of the run before, filled again.
fn moves(by: usize, fresh: bool) -> (f64, f64) {
    const P: usize = 1316;
    let (full, stretch) = filled(Stretch::full(P), 10, 10, 200, 40, &|_| false);
    let (mut out, mut sizes) = (vec![0; move_room(by, P)], vec![0; by]);
    let mut next = 200;
    let mut warm = full.clone();
    let mut kept = vec![0u8; 200 * P];
    let copied = |store: &mut [u8], out: &mut [u8]| {
        for (to, from) in out.chunks_exact_mut(MEDIA_HEADER + P).zip(store.chunks_exact(P)) {
            to[MEDIA_HEADER..].copy_from_slice(from);
        }
        store.copy_within(by * P.., 0);
        black_box((&*store, &*out));
    };
    if fresh {
        let ours = median(301, || full.clone(), |r| r.advance(by, &mut out, &mut sizes).unwrap().handed_out());
        let copy = median(301, || kept.clone(), |store| copied(black_box(store), black_box(&mut out)));
        return (ours, copy);
    }
    let mut times: Vec<f64> = (0..301)
        .map(|_| {
            let start = Instant::now();
            assert_eq!(black_box(warm.advance(by, &mut out, &mut sizes).unwrap().handed_out()), by);
            let time = start.elapsed().as_nanos() as f64;
            (next..next + by).for_each(|i| assert_eq!(warm.media(&media(&stretch, i)), taken(0)));
            next += by;
            time
        })
        .collect();
    times.sort_by(f64::total_cmp);
    (times[150], median(301, || (), |_| copied(black_box(&mut kept), black_box(&mut out))))
}

/// The line of a stream that goes on: each datagram with its port, in the order of sending, less what is lost in a hundred; a row's parity
/// with its last packet, a column's while the next matrix goes by. 20 matrices of 10 × 10.
fn line(stretch: &Stretch, lost_in_100: u64) -> (Vec<(Port, Vec<u8>)>, usize) {
    let (mut line, mut state, packets) = (Vec::new(), 1u64, 2000);
    let mut lost = || {
        state = state.wrapping_add(0x9e37_79b9_7f4a_7c15);
        let z = (state ^ (state >> 30)).wrapping_mul(0xbf58_476d_1ce4_e5b9);
        let z = (z ^ (z >> 27)).wrapping_mul(0x94d0_49bb_1331_11eb);
        (z ^ (z >> 31)) % 100 < lost_in_100
    };
    for place in 0..packets {
        let (matrix, within) = (place / 100, place % 100);
        let mut sent = vec![(Port::Media, media(stretch, place))];
        if matrix > 0 && within % 10 == 0 {
            sent.push((Port::Column, parity(stretch, 10, 10, false, (matrix - 1) * 100 + within / 10)));
        }
        if within % 10 == 9 {
            sent.push((Port::Row, parity(stretch, 10, 10, true, place - 9)));
        }
        line.extend(sent.into_iter().filter(|_| !lost()));
    }
    (line, packets)
}

/// A card that moves by so many positions as the stream goes on, n 200, K 40: the time of all calls together, a packet sent, and what was
/// handed out and given up.
fn long_run(by: usize, lost_in_100: u64) -> (f64, usize, usize) {
    const P: usize = 1316;
    let stretch = Stretch::full(P);
    let (line, packets) = line(&stretch, lost_in_100);
    let (mut out, mut sizes) = (vec![0; move_room(by, P)], vec![0; by]);
    let (mut handed_out, mut left_behind) = (0, 0);
    let time = median(
        21,
        || open(10, 10, P, 200, 40),
        |r| {
            (handed_out, left_behind) = (0, 0);
            for (port, datagram) in &line {
                while r.ahead(*port, datagram) {
                    handed_out += r.advance(by, &mut out, &mut sizes).unwrap().handed_out();
                    left_behind += by;
                }
                let _ = black_box(match port {
                    Port::Media => r.media(datagram),
                    Port::Column => r.column(datagram),
                    Port::Row => r.row(datagram),
                });
            }
        },
    );
    (time / packets as f64, handed_out, left_behind - handed_out)
}

/// A copy of each media packet of that stream, its 1,316 bytes, into 200 places in turn.
fn long_copy() -> f64 {
    const P: usize = 1316;
    let stretch = Stretch::full(P);
    let (line, packets) = line(&stretch, 0);
    let mut store = vec![0u8; 200 * P];
    median(
        21,
        || (),
        |_| {
            for (i, (_, datagram)) in line.iter().filter(|(port, _)| *port == Port::Media).enumerate() {
                let to = &mut black_box(&mut store)[i % 200 * P..][..P];
                to.copy_from_slice(&black_box(datagram)[MEDIA_HEADER..]);
            }
            black_box(&store);
        },
    ) / packets as f64
}

/// The middle one of five runs of a thing that gives a time.
fn of_five<T: Copy>(mut thing: impl FnMut() -> T, time: impl Fn(&T) -> f64) -> T {
    let mut runs: Vec<T> = (0..5).map(|_| thing()).collect();
    runs.sort_by(|a, b| time(a).total_cmp(&time(b)));
    runs[2]
}

fn moving() {
    println!(
        "a move of a full window, n 200, K 40, L 10, D 10, P 1316, beside a memmove of the same payloads: those that leave to the output,"
    );
    println!(
        "the others down; the pair of the median ratio of five. The move clears the new positions too. In the store of the move before,"
    );
    println!("filled up, and in a copy of a full one made just before");
    for by in [100, 1, 200] {
        for (fresh, how) in [(false, "filled up"), (true, "a copy   ")] {
            let (ours, copy) = of_five(|| moves(by, fresh), |(ours, copy)| ours / copy);
            println!("  by {by:3}, {how}   {ours:8.0} ns   memmove {copy:8.0} ns   {:.2} times", ours / copy);
        }
    }
    println!("\na packet in the long run, all calls together (media, columns, rows, moves), 2000 packets, n 200, K 40, L 10, D 10, P 1316");
    for (by, lost) in [(100, 0), (100, 2), (1, 0), (1, 2)] {
        let ((time, handed_out, given_up), copy) = of_five(|| (long_run(by, lost), long_copy()), |((time, ..), copy)| time / copy);
        print!("  by {by:3}, {lost} % lost   {time:6.0} ns a packet sent   memcpy of the payload {copy:4.0} ns   {:.1} times", time / copy);
        println!("   handed out {handed_out}, given up {given_up}");
    }
}

/// The largest number of entries of one length: writing their file, judging it, and a memcpy of the bodies.
fn captures(length: usize) -> (f64, f64, f64) {
    let set_up = SetUp { base: 65_500, l: 10, d: 10, payload: 1316, positions: 100, records: 40, ssrc: 0 };
    let (ports, lengths) = ([Port::Media; ENTRIES_MAX], [length as u16; ENTRIES_MAX]);
    let bodies: Vec<u8> = (0..ENTRIES_MAX * length).map(|i| i as u8).collect();
    let mut file = vec![0; FRONT_MAX + bodies.len()];
    let mut copy = bodies.clone();
    let writes = median(1001, || (), |_| capture::write(&set_up, &ports, &lengths, black_box(&bodies), &mut file).unwrap());
    let reads = median(1001, || (), |_| assert!(Capture::read(black_box(&file)).is_ok()));
    let copies = median(1001, || (), |_| copy.copy_from_slice(black_box(&bodies)));
    (writes, reads, copies)
}

fn sender(l: usize, d: usize, payload: usize, arrangement: Arrangement) -> Sender {
    let streams = ParityStreams::default();
    Sender::open(SenderSetUp { first: 65_500, arrangement, l, d, payload, streams }).unwrap()
}

/// The median time of a packet among the second half of some, where the first half, two matrices, was taken in just before: rows and
/// columns go out as they do all day.
fn each<T>(datagrams: &[Vec<u8>], open: impl Fn() -> T, mut one: impl FnMut(&mut T, usize)) -> f64 {
    let half = datagrams.len() / 2;
    let ready = |one: &mut dyn FnMut(&mut T, usize)| {
        let mut with = open();
        (0..half).for_each(|i| one(&mut with, i));
        with
    };
    let mut times: Vec<f64> = (0..1001)
        .map(|_| {
            let mut with = ready(&mut one);
            let start = Instant::now();
            (half..datagrams.len()).for_each(|i| one(&mut with, i));
            black_box(&with);
            start.elapsed().as_nanos() as f64 / half as f64
        })
        .collect();
    times.sort_by(f64::total_cmp);
    times[times.len() / 2]
}

/// What our sender and FFmpeg's send over aligned columns is the same, but for the RTP header and the moment of a row.
fn same_as_ffmpeg(build: &'static Build, datagrams: &[Vec<u8>], l: usize, d: usize, p: usize) {
    let (mut ours, mut theirs) = (sender(l, d, p, Arrangement::Aligned), Prompeg::open(build, l, d, p));
    let (mut row, mut packets) = (Vec::new(), 0);
    for g in datagrams {
        let must = theirs.write(g);
        let sent = ours.media(g, 0).unwrap();
        if must.row {
            assert_eq!(theirs.last(true), &row[12..]);
        }
        assert_eq!(must.column, sent.column.is_some());
        if let Some(column) = sent.column {
            assert_eq!(theirs.last(false), &column[12..]);
        }
        row = sent.row.map_or(row, <[u8]>::to_vec);
        packets += must.row as usize + must.column as usize;
    }
    assert!(packets > datagrams.len() / l);
}

/// FFmpeg's sender: a packet into its row and its column from a bitstring made before, and all that prompeg does but for the socket.
fn by_ffmpeg(build: &'static Build, datagrams: &[Vec<u8>], p: usize) -> (f64, f64) {
    same_as_ffmpeg(build, datagrams, 10, 10, p);
    let open = || Prompeg::open(build, 10, 10, p);
    let prompeg = open();
    let bitstrings: Vec<Vec<u8>> = datagrams.iter().map(|g| prompeg.bitstring(g)).collect();
    let core = each(datagrams, open, |s, i| s.xor(&datagrams[i], &bitstrings[i]));
    let whole = each(datagrams, open, |s, i| drop(black_box(s.write(&datagrams[i]))));
    (core, whole)
}

/// Media through a sender, L 10, D 10, P 1,316: 200 datagrams one after the other, room for 21 payloads and two outputs.
fn sending() {
    const P: usize = 1316;
    let stretch = Stretch::full(P);
    let datagrams: Vec<Vec<u8>> = (0..400).map(|i| media(&stretch, i)).collect();
    let ours = [Arrangement::Aligned, Arrangement::Staggered].map(|arrangement| {
        let one = |s: &mut Sender, i: usize| assert!(black_box(s.media(&datagrams[i], 0)).is_ok());
        each(&datagrams, || sender(10, 10, P, arrangement), one)
    });
    let copy = each(
        &datagrams,
        || vec![0; room_for(10) * P],
        |room, i| room[i % room_for(10) * P..][..P].copy_from_slice(&black_box(&datagrams[i])[12..]),
    );
    println!(
        "a media packet through a sender, L 10, D 10, P 1316, with the parity packets that go out: 200 datagrams one after the other,"
    );
    println!("after 200 others; room for 21 payloads and two outputs of 1344 bytes, FFmpeg's for 21 bitstrings of 1324 bytes");
    println!("  ours, aligned and staggered                           {:7.0} ns {:7.0} ns", ours[0], ours[1]);
    let says =
        |what: &str, time: f64| println!("  {what:53} {time:7.0} ns   ours is {:.2} and {:.2} of it", ours[0] / time, ours[1] / time);
    for (build, how) in [(&FFMPEG, "as FFmpeg builds it"), (&VECTORS, "built with vectors")] {
        let (core, whole) = by_ffmpeg(build, &datagrams, P);
        says(&format!("FFmpeg's xor alone, {how}"), core);
        says(&format!("all of prompeg but the socket, {how}"), whole);
    }
    says("memcpy of the payloads, to 21 places in turn", copy);
}

fn main() {
    println!("a media packet in good weather, each packet of the window in turn, L 10, D 10");
    for (n, k, p) in [(200, 40, 1316), (100, 40, 1316), (400, 40, 1316), (200, 10, 1316), (200, 128, 1316), (200, 40, 188), (200, 40, 752)]
    {
        let (each, copy) = good_weather(n, k, Stretch::full(p));
        println!("  n {n:3}, K {k:3}, P {p:4}   {each:7.0} ns   memcpy of the payloads {copy:5.0} ns   {:.1} times", each / copy);
    }
    println!("\na media packet that rebuilds nothing, into a cold copy of the store, L 4, D 4, P 1316; a row parity packet that finds none missing");
    for (n, k, used) in [(200, 40, 0), (200, 40, 1), (200, 40, 10), (400, 128, 0), (400, 128, 1), (400, 128, 10), (400, 128, 100)] {
        println!("  n {n:3}, K {k:3}, {used:3} in use  {:7.0} ns {:7.0} ns", stores(n, k, used, 1316), finds_none(n, k, used, 1316));
    }
    println!("\na media packet that rebuilds one other, n 100, K 40");
    for (na, p) in [(5, 1316), (10, 1316), (20, 1316), (10, 188)] {
        println!("  NA {na:2}, P {p:4}          {:7.0} ns", rebuilds_one(na, Stretch::full(p)));
    }
    println!("\na row parity packet that finds its whole group present, beside one that rebuilds one other, n 100, K 40");
    for (na, p, how, stretch) in [
        (5, 1316, "", Stretch::full as fn(usize) -> Stretch),
        (10, 1316, "", Stretch::full),
        (20, 1316, "", Stretch::full),
        (10, 188, "", Stretch::full),
        (10, 1316, ", one to seven transport packets", Stretch::mixed),
    ] {
        let (compared, rebuilt) = compares(na, stretch, p);
        println!("  NA {na:2}, P {p:4}{how}   {compared:7.0} ns   rebuilt {rebuilt:7.0} ns   {:.2} times", compared / rebuilt);
    }
    println!("\na late media packet that sets off a chain of rebuilds, n 400, K 128, NA 4");
    for (chain, p) in [(10, 1316), (100, 1316), (100, 188)] {
        let all = rebuilds_many(chain, 400, 128, p);
        println!("  {chain:3} rebuilt, P {p:4}    {all:7.0} ns   {:.0} ns each", all / chain as f64);
    }
    println!("\na row parity packet that is held, n 200, P 1316");
    for k in [10, 40, 128] {
        println!("  K {k:3}                 {:7.0} ns", holds(k, 1316));
    }
    println!("\na refusal by length, after the test of order");
    for (n, k) in [(200, 40), (400, 40), (200, 128)] {
        println!("  n {n:3}, K {k:3}          {:7.0} ns", refuses(n, k));
    }
    println!("\npayloads of one to seven transport packets, P 1316");
    let (each, copy) = good_weather(200, 40, Stretch::mixed(1316));
    println!("  good weather, n 200, K 40  {each:7.0} ns   memcpy of the payloads {copy:5.0} ns   {:.1} times", each / copy);
    println!("  rebuilds one other, NA 10  {:7.0} ns", rebuilds_one(10, Stretch::mixed(1316)));
    println!("  20 parity packets, 10 x 10 {:7.0} ns", writes(&filled(Stretch::mixed(1316), 10, 10, 100, 40, &|_| false).0));
    println!("\na capture file of 512 entries of one length");
    for length in [0, 200, 1328] {
        let (writes, reads, copies) = captures(length);
        println!("  {length:4} bytes each   written {writes:7.0} ns   judged {reads:7.0} ns   memcpy of the bodies {copies:7.0} ns");
    }
    println!();
    moving();
    println!();
    sending();
    // Last: ISA-L leaves the upper halves of the vector registers in use, and code without AVX is slower after it.
    println!();
    writing();
}
