//! bench: the proved decoder beside the independent one, on the same inputs in one process.
//! bench count DECODER ROUNDS: one call for so many rounds on one frame, for counting instructions.

use harness::clock::cpu_nanoseconds;
use harness::decoder::{Decoder, Record, Verdict};
use harness::gen::state::{Shape, State};
use harness::gen::{code, frame, rng::Rng};
use harness::independent::limits::{certificate_length, ROUND_LIMIT};
use harness::independent::Independent;
use harness::proved::Proved;
use std::process::ExitCode;

const DECODERS: [&dyn Decoder; 2] = [&Proved, &Independent];
const SEED: u64 = 2026;
/// Bits, checks of a bit and members of a check: the largest code in which these are 3 and 6.
const MAIN: Regular = (2_048, 3, 6);
/// The last one has the most edges that there may be.
const GROWTH: [Regular; 7] =
    [(96, 3, 6), (192, 3, 6), (384, 3, 6), (768, 3, 6), (1_536, 3, 6), MAIN, (2_048, 4, 8)];
/// The gain is the mean frame number of a sent 0; the deviation is the noise's.
const GAIN: f64 = 3_000.0;
const DEVIATION: f64 = 2_200.0;
const FRAMES: usize = 24;
const REPETITIONS: usize = 15;
/// Nanoseconds of work before the first measurement: a processor that was idle is slow at first.
const WARM_UP: f64 = 5e8;
/// Edges times rounds of one measurement in the growth table.
const GROWTH_WORK: usize = 2_000_000;
const GROWTH_ROUNDS: u32 = 32;

type Regular = (usize, usize, usize);

struct Bench {
    code: Vec<u8>,
    shape: Shape,
    frames: Vec<Vec<i16>>,
}

/// What one decoder made of all frames.
struct Work {
    nanoseconds: f64,
    rounds: u32,
    certified: usize,
}

impl Bench {
    fn new((bits, column, row): Regular, frames: usize) -> Bench {
        let mut rng = Rng::new(SEED);
        let code = code::regular(&mut rng, bits, column, row);
        let shape = Shape::of(&code).expect("a sound code");
        let noisy = |_| frame::noisy(&mut rng, shape.bits, GAIN, DEVIATION);
        Bench { frames: (0..frames).map(noisy).collect(), code, shape }
    }

    /// A run of at most so many rounds in one call. Buffers are cleared first, outside the time taken.
    fn run(&self, decoder: &dyn Decoder, frame: &[i16], wanted: u32) -> (f64, Record, State) {
        let mut state = State::zeroed(&self.shape);
        let begun = cpu_nanoseconds();
        let called = decoder.rounds(&self.code, frame, Record::FRESH, wanted, state.lend_all());
        let nanoseconds = cpu_nanoseconds() - begun;
        assert_eq!(called.refusal, None);
        (nanoseconds, called.record, state)
    }

    fn run_all(&self, decoder: &dyn Decoder, wanted: u32) -> Work {
        let mut work = Work { nanoseconds: 0.0, rounds: 0, certified: 0 };
        for frame in &self.frames {
            let (nanoseconds, record, _) = self.run(decoder, frame, wanted);
            work.nanoseconds += nanoseconds;
            work.rounds += record.rounds;
            work.certified += usize::from(record.status == Record::CERTIFIED);
        }
        work
    }

    /// Runs that have done so many rounds and go on.
    fn half_done(&self, rounds: u32) -> Vec<(&[i16], Record, State)> {
        let run = |frame| {
            let (_, record, state) = self.run(&Independent, frame, rounds);
            (frame, record, state)
        };
        let runs = self.frames.iter().map(|frame| run(&frame[..]));
        runs.filter(|(_, record, _)| record.status == Record::RUNNING).collect()
    }

    /// Nanoseconds of a call for no round on each: all that a call does before its rounds, with the comparison
    /// of sums.
    fn enter_all(&self, decoder: &dyn Decoder, half_done: &mut [(&[i16], Record, State)]) -> f64 {
        let begun = cpu_nanoseconds();
        for (frame, record, state) in half_done {
            let called = decoder.rounds(&self.code, frame, *record, 0, state.lend_all());
            assert_eq!(called.refusal, None);
        }
        cpu_nanoseconds() - begun
    }

    /// Nanoseconds of judging the certificates of all certified frames.
    fn judge_all(&self, decoder: &dyn Decoder, certified: &[(&[i16], State)]) -> f64 {
        let begun = cpu_nanoseconds();
        for (frame, state) in certified {
            let certificate = state.certificate.lent();
            let entries = usize::from(u16::from_le_bytes([certificate[0], certificate[1]]));
            let certificate = &certificate[..certificate_length(entries)];
            let verdict = decoder.judge(&self.code, frame, state.word.lent(), certificate);
            assert!(matches!(verdict, Ok(Verdict::Certified { .. })), "{verdict:?}");
        }
        cpu_nanoseconds() - begun
    }

    fn certified(&self) -> Vec<(&[i16], State)> {
        let run = |frame: &Vec<i16>| self.run(&Independent, frame, ROUND_LIMIT);
        let runs = self.frames.iter().map(|frame| (&frame[..], run(frame)));
        runs.filter(|(_, run)| run.1.status == Record::CERTIFIED).map(|(frame, run)| (frame, run.2)).collect()
    }
}

fn median(mut values: Vec<f64>) -> f64 {
    values.sort_by(f64::total_cmp);
    values[values.len() / 2]
}

/// Medians of a measure for both decoders, taken in turns.
fn medians(mut measure: impl FnMut(&dyn Decoder) -> f64) -> [f64; 2] {
    let mut taken = [Vec::new(), Vec::new()];
    for repetition in 0..REPETITIONS {
        for turn in 0..2 {
            let which = (turn + repetition) % 2;
            taken[which].push(measure(DECODERS[which]));
        }
    }
    taken.map(median)
}

fn line(what: &str, [proved, independent]: [f64; 2]) {
    println!("{what:44} {proved:12.2} {independent:12.2} {:8.3}", proved / independent);
}

fn heading(what: &str) {
    println!("\n{what:44} {:>12} {:>12} {:>8}", "proved", "independent", "ratio");
}

fn warm_up(bench: &Bench) {
    let begun = cpu_nanoseconds();
    while cpu_nanoseconds() - begun < WARM_UP {
        for decoder in DECODERS {
            bench.run_all(decoder, GROWTH_ROUNDS);
        }
    }
}

fn rounds_and_frames(bench: &Bench) {
    let edges = bench.shape.edges as f64;
    let frames = bench.frames.len() as f64;
    heading("microseconds");
    let mut half_done = bench.half_done(10);
    let runs = half_done.len() as f64;
    let enter = medians(|decoder| bench.enter_all(decoder, &mut half_done) / runs / 1e3);
    line("call for 0 rounds, on a half-done run", enter);
    let all = |wanted: u32| medians(|decoder| bench.run_all(decoder, wanted).nanoseconds / frames / 1e3);
    let calls = [1, 10, 30].map(all);
    line("call for 1 round", calls[0]);
    line("call for 10 rounds", calls[1]);
    let one = [0, 1].map(|k| (calls[2][k] - calls[1][k]) / 20.0);
    line("a round (of rounds 11 to 30 of a call)", one);
    let whole = bench.run_all(&Proved, ROUND_LIMIT);
    let micros = all(ROUND_LIMIT);
    line("whole frame, one call for 1024 rounds", micros);
    heading("nanoseconds per edge and round");
    line("rounds 11 to 30", one.map(|t| t * 1e3 / edges));
    let per_edge = |t: f64| t * 1e3 * frames / edges / f64::from(whole.rounds);
    line("whole frames", micros.map(per_edge));
    let mean = f64::from(whole.rounds) / frames;
    println!("rounds per frame {mean:.1}; {} of {frames} frames certified", whole.certified);
}

fn judging(bench: &Bench) {
    let certified = bench.certified();
    heading("judge");
    let micros = medians(|decoder| bench.judge_all(decoder, &certified) / certified.len() as f64 / 1e3);
    line("microseconds per certificate", micros);
    line("nanoseconds per edge", micros.map(|t| t * 1e3 / bench.shape.edges as f64));
}

fn growth() {
    heading("ns per edge and round, first 32 rounds");
    for regular in GROWTH {
        let (bits, column, row) = regular;
        let edges = bits * column;
        let bench = Bench::new(regular, GROWTH_WORK / edges / GROWTH_ROUNDS as usize);
        let rounds = bench.run_all(&Independent, GROWTH_ROUNDS).rounds;
        let work = edges as f64 * f64::from(rounds);
        let each = medians(|decoder| bench.run_all(decoder, GROWTH_ROUNDS).nanoseconds / work);
        line(&format!("E {edges}, n {bits}, degrees {column} and {row}"), each);
    }
}

/// The rounds alone, on the first frame that takes more than 40: none of 10 to 30 rounds ends the run.
fn count(decoder: &dyn Decoder, wanted: u32) {
    let bench = Bench::new(MAIN, FRAMES);
    let rounds = |frame: &Vec<i16>| bench.run(&Independent, frame, 64).1.rounds;
    let long = bench.frames.iter().find(|frame| rounds(frame) > 40).expect("a long frame");
    let (_, record, _) = bench.run(decoder, long, wanted);
    println!("{} {}", bench.shape.edges, record.rounds);
}

fn main() -> ExitCode {
    let arguments: Vec<String> = std::env::args().skip(1).collect();
    let arguments: Vec<&str> = arguments.iter().map(String::as_str).collect();
    match arguments[..] {
        [] => {
            let bench = Bench::new(MAIN, FRAMES);
            println!("(3, 6)-regular, n {}, E {}, seed {SEED}", bench.shape.bits, bench.shape.edges);
            println!("frames gaussian-like, gain {GAIN}, deviation {DEVIATION}, clipped to 8191");
            println!("processor time, medians of {REPETITIONS} repetitions taken in turns");
            warm_up(&bench);
            rounds_and_frames(&bench);
            judging(&bench);
            growth();
        }
        ["count", name, wanted] => {
            let decoder = DECODERS.into_iter().find(|decoder| decoder.name() == name);
            match (decoder, wanted.parse()) {
                (Some(decoder), Ok(wanted)) => count(decoder, wanted),
                _ => return usage(),
            }
        }
        _ => return usage(),
    }
    ExitCode::SUCCESS
}

fn usage() -> ExitCode {
    eprintln!("usage: bench | bench count proved|independent ROUNDS");
    ExitCode::from(2)
}
