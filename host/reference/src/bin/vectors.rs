//! The gate's test data and stored outputs, made again by the reference; host/vectors/README.md says how they hang together.
//!
//!     vectors make calls|runs|steps|logs|replans|pairs                          the data file, to standard output
//!     vectors show calls|runs|steps|logs|replans|pairs                          the data file of the repository as text
//!     vectors answer calls|runs|steps|texts|logs|replans|pairs|parts|patterns   what the program must print
//!     vectors text                                                              what the text program prints for standard input
//!     vectors tally                                                             what the program tally prints for standard input
use reference::instance::Instance;
use reference::json::Json;
use reference::pairs::{self, paired, patterns_text};
use reference::replans::{replan_in, replan_text, replanned, replanned_as, ByHand, Replan};
use reference::stored::{booking_in, booking_text, booking_words, bookings_of, stepped};
use reference::stored::{log_in, log_text, log_words, logs_of, tallied};
use reference::stored::{played, ran, run_in, run_text, run_words, runs_in, runs_of, steps_in, steps_of, to_bytes, to_words, Step};
use reference::{by_hand, tally, text};
use std::fs::{read, read_dir, read_to_string};
use std::io::{Read, Write};

/// A file or folder of the repository.
fn at(path: &str) -> String {
    format!("{}/../../{path}", env!("CARGO_MANIFEST_DIR"))
}

fn vectors() -> Vec<Json> {
    let mut files: Vec<_> = read_dir(at("host/vectors")).unwrap().map(|f| f.unwrap().path()).collect();
    files.retain(|f| f.extension().is_some_and(|e| e == "json"));
    files.sort();
    let all = files.iter().map(|f| Json::read(&read_to_string(f).unwrap()));
    // the others are files of single calls
    all.filter(|v| v.has("calls")).collect()
}

/// A file of single calls: `steps` has those of `STEPPED`, `calls` and `runs` those of `DEFAULTS`, `calls` those of `GAPS` too,
/// `logs` those of `TALLIES`, `replans` those of `CHARGES`.
fn records(name: &str) -> Json {
    Json::read(&read_to_string(at(&format!("host/vectors/{name}"))).unwrap())
}

const STEPPED: &str = "stepped-gate-4302.json";
const DEFAULTS: &str = "default-gate-4303.json";
const GAPS: &str = "gap-gate-4304.json";
const TALLIES: &str = "tally-gate-4305.json";
const CHARGES: &str = "charges-gate-4306.json";

/// The cases of `replans` that were written by hand, which stand before the others.
fn replans_by_hand() -> Vec<Replan> {
    ByHand::read(&read_to_string(at("host/vectors/replans.txt")).unwrap())
}

/// The tables of the folder `instances` that `calls` has.
const INSTANCES: [&str; 2] = ["brief31", "stairs-24-cost"];

fn instance(name: &&str) -> Instance {
    Instance::read(&read_to_string(at(&format!("host/vectors/instances/{name}.txt"))).unwrap())
}

fn make(what: &str) -> Vec<u8> {
    let words: Vec<u16> = match what {
        "calls" => {
            let by_hand = read_to_string(at("host/vectors/calls.txt")).unwrap();
            let mut steps: Vec<Step> = by_hand.lines().flat_map(Step::read).collect();
            steps.extend(steps_in(records(DEFAULTS).get("records").list()));
            steps.extend(steps_in(records(GAPS).get("records").list()));
            steps.extend(INSTANCES.iter().flat_map(|name| instance(name).steps()));
            steps.extend(vectors().iter().flat_map(steps_of));
            steps.iter().flat_map(Step::words).collect()
        }
        "runs" => {
            let mut runs: Vec<_> = vectors().iter().flat_map(runs_in).collect();
            runs.extend(records(DEFAULTS).get("records").list().iter().filter_map(run_in));
            runs.iter().flat_map(run_words).collect()
        }
        "steps" => records(STEPPED).get("records").list().iter().flat_map(|r| booking_words(&booking_in(r))).collect(),
        "logs" => records(TALLIES).get("records").list().iter().flat_map(|r| log_words(&log_in(r))).collect(),
        "replans" => {
            let mut cases = replans_by_hand();
            cases.extend(records(CHARGES).get("records").list().iter().map(replan_in));
            cases.iter().flat_map(run_words).collect()
        }
        "pairs" => pairs::cases().iter().flat_map(booking_words).collect(),
        _ => panic!("calls, runs, steps, logs, replans or pairs"),
    };
    to_bytes(&words)
}

fn data(what: &str) -> Vec<u16> {
    to_words(&read(at(&format!("crates/{what}/data/{what}.bin"))).unwrap())
}

fn show(what: &str) -> String {
    let lines: Vec<String> = match what {
        "calls" => Step::lines(&Step::all(&data(what))),
        "runs" => runs_of(&data(what)).iter().map(run_text).collect(),
        "steps" => bookings_of(&data(what)).iter().map(booking_text).collect(),
        "logs" => logs_of(&data(what)).iter().map(|log| log_text(log)).collect(),
        "replans" => runs_of(&data(what)).iter().map(replan_text).collect(),
        "pairs" => bookings_of(&data(what)).iter().map(patterns_text).collect(),
        _ => panic!("calls, runs, steps, logs, replans or pairs"),
    };
    lines.iter().map(|l| format!("{l}\n")).collect()
}

/// Each file that a list of `texts` names, and what is printed of it.
fn texts(list: &str, printed: fn(&[u8]) -> String) -> String {
    let folder = at("crates/texts/data");
    let line = |name: &str| format!("{name}\n{}", printed(&read(format!("{folder}/{name}")).unwrap()));
    read_to_string(format!("{folder}/{list}")).unwrap().lines().map(line).collect()
}

fn answer(what: &str) -> String {
    match what {
        "calls" => played(&Step::all(&data(what))),
        "runs" => ran(&runs_of(&data(what))),
        "steps" => {
            let (bookings, records) = (bookings_of(&data(what)), records(STEPPED));
            let records = records.get("records").list();
            assert_eq!(bookings.len(), records.len(), "the data file has other bookings than the vectors");
            bookings.iter().zip(records).map(|(b, r)| stepped(b, r)).collect()
        }
        "texts" => texts("list.txt", text::printed) + &texts("logs.txt", tally::printed),
        "logs" => {
            let (logs, records) = (logs_of(&data(what)), records(TALLIES));
            let records = records.get("records").list();
            assert_eq!(logs.len(), records.len(), "the data file has other logs than the vectors");
            logs.iter().zip(records).map(|(log, r)| tallied(log, r)).collect()
        }
        "replans" => {
            let (cases, records, by_hand) = (runs_of(&data(what)), records(CHARGES), replans_by_hand().len());
            let records = records.get("records").list();
            assert_eq!(cases.len(), by_hand + records.len(), "the data file has other lists than the vectors");
            let lines = cases[..by_hand].iter().map(replanned);
            lines.chain(cases[by_hand..].iter().zip(records).map(|(c, r)| replanned_as(c, r))).collect()
        }
        "pairs" => bookings_of(&data(what)).iter().map(paired).collect(),
        "parts" => by_hand::part_lines(),
        "patterns" => by_hand::pattern_lines(),
        _ => panic!("calls, runs, steps, texts, logs, replans, pairs, parts or patterns"),
    }
}

fn input() -> Vec<u8> {
    let mut bytes = vec![];
    std::io::stdin().read_to_end(&mut bytes).unwrap();
    bytes
}

fn work() {
    let arguments: Vec<String> = std::env::args().skip(1).collect();
    let words: Vec<&str> = arguments.iter().map(|a| &a[..]).collect();
    let out = match words[..] {
        ["make", what] => make(what),
        ["show", what] => show(what).into(),
        ["answer", what] => answer(what).into(),
        ["text"] => text::printed(&input()).into(),
        ["tally"] => tally::printed(&input()).into(),
        _ => panic!("vectors make|show|answer WHAT, vectors text, or vectors tally"),
    };
    // a reader may stop early
    std::io::stdout().write_all(&out).ok();
}

fn main() {
    // the reference recurses over trees as deep as a tree may be
    let work = std::thread::Builder::new().stack_size(512 << 20).spawn(work).unwrap();
    if work.join().is_err() {
        std::process::exit(1);
    }
}
