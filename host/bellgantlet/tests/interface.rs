//! The header, the raw declarations, the exported functions' source and the library have the same calls, with the same
//! structs; the header and the wrapper the same constants and texts.
use bellgantlet::*;
use std::collections::BTreeMap;

const HEADER: &str = include_str!("../../include/bellgantlet.h");
const RAW: &str = include_str!("../src/raw.rs");
const EXPORTED: &str = include_str!("../../../crates/bellgantlet_c/src/lib.rt");
const STRUCTS: &str = include_str!("../../../crates/bellgantlet/src/lib.rt");
const README: &str = include_str!("../../../README.md");

/// A field or a parameter: its name and its type, as Rust writes it.
type Named = (String, String);
/// A call's parameters, a slice as its pointer and its length; and the fields of what it gives.
type Calls = BTreeMap<String, (Vec<Named>, Vec<Named>)>;
type Structs = BTreeMap<String, Vec<Named>>;

fn named(name: &str, of: &str) -> Named {
    (name.trim().to_string(), of.split_whitespace().collect::<Vec<_>>().join(" "))
}

/// What stands between the first `open` and the `close` behind it, and what stands behind.
fn between<'a>(text: &'a str, open: &str, close: &str) -> (&'a str, &'a str) {
    let from = text.find(open).unwrap_or_else(|| panic!("no {open}")) + open.len();
    let to = from + text[from..].find(close).unwrap_or_else(|| panic!("no {close}"));
    (&text[from..to], &text[to + close.len()..])
}

fn given(structs: &Structs, of: &str) -> Vec<Named> {
    structs.get(of.trim()).cloned().unwrap_or_else(|| vec![named("", of)])
}

/// A pointer; to a struct it is one to the fields, and an array alone is the struct of its words.
fn pointer(structs: &Structs, sort: &str, of: &str) -> String {
    match structs.get(of) {
        Some(fields) => format!("{sort} {fields:?}"),
        None if of.starts_with('[') => format!("{sort} {:?}", [named("words", &numbered(of))]),
        None => format!("{sort} {of}"),
    }
}

/// The length of an array as a number.
fn numbered(of: &str) -> String {
    let check = CHECK_WORDS.to_string();
    let of = of.replace("VARIABLES", &VARIABLES.to_string()).replace("RULE_NUMBERS", &RULE_NUMBERS.to_string());
    of.replace("CHECK_WORDS", &check).replace("STATE", &check)
}

// ---- the header

fn without_comments(text: &str) -> String {
    text.split("/*").enumerate().map(|(i, t)| if i == 0 { t } else { t.split_once("*/").unwrap().1 }).collect()
}

/// `uint16_t` or `const bellgantlet_check *`, as Rust writes it.
fn c_type(structs: &Structs, of: &str) -> String {
    let Some(of) = of.strip_suffix('*') else {
        return of.replace("uint16_t", "u16").replace("size_t", "usize");
    };
    match of.trim().strip_prefix("const ") {
        Some(of) => pointer(structs, "*const", &c_type(structs, of)),
        None => pointer(structs, "*mut", &c_type(structs, of.trim())),
    }
}

/// `const uint16_t *table` or `uint16_t places[BELLGANTLET_VARIABLES]`.
fn c_named(structs: &Structs, text: &str) -> Named {
    let text = text.trim();
    let from = text.rfind([' ', '*']).unwrap() + 1;
    let (of, name) = (c_type(structs, text[..from].trim()), &text[from..]);
    match name.split_once("[BELLGANTLET_") {
        Some((name, length)) => named(name, &numbered(&format!("[{of}; {length}"))),
        None => named(&name.replace("_words", "_n").replace("_length", "_n"), &of),
    }
}

fn of_header() -> Calls {
    let text = without_comments(HEADER);
    let mut structs = Structs::new();
    let mut rest = &text[..];
    while rest.contains("typedef struct {") {
        let (fields, behind) = between(rest, "typedef struct {", "}");
        let name = behind.split_once(';').unwrap().0.trim();
        let fields = fields.split(';').filter(|f| !f.trim().is_empty()).map(|f| c_named(&structs, f)).collect();
        structs.insert(name.into(), fields);
        rest = behind;
    }
    let mut calls = Calls::new();
    for line in rest.split(';').filter(|l| l.contains('(')) {
        let (before, parameters) = line.split_once('(').unwrap();
        let before: Vec<&str> = before.split_whitespace().collect();
        let [.., of, name] = before[..] else { panic!("{line}") };
        let of = if of == "uint16_t" { vec![named("", "u16")] } else { given(&structs, of) };
        let parameters = parameters.trim_end_matches(')').split(',').map(|p| c_named(&structs, p)).collect();
        calls.insert(name.into(), (parameters, of));
    }
    calls
}

// ---- Rust and Rattle

fn structs(text: &str) -> Structs {
    let mut all = Structs::new();
    for part in text.split("#[repr(C)]").skip(1) {
        let (name, _) = between(part, "pub struct ", "{");
        let (fields, _) = between(part, "{", "}");
        let fields = fields.split(",\n").filter(|f| f.contains(':')).map(|f| {
            let (n, of) = f.trim().trim_start_matches("pub ").split_once(':').unwrap();
            named(n, &numbered(of.trim_end_matches(',')))
        });
        all.insert(name.trim().into(), fields.collect());
    }
    all
}

/// `&mut [u16; STATE]` or `*mut Check`, or what is no pointer.
fn lent(structs: &Structs, of: &str) -> String {
    for (start, sort) in [("&mut ", "*mut"), ("*mut ", "*mut"), ("*const ", "*const"), ("&", "*const")] {
        if let Some(of) = of.strip_prefix(start) {
            return pointer(structs, sort, of);
        }
    }
    of.to_string()
}

/// The functions behind each `mark`; a slice is a pointer and a length.
fn functions(text: &str, mark: &str, end: &str, structs: &Structs) -> Calls {
    let mut calls = Calls::new();
    for part in text.split(mark).skip(1) {
        let (name, behind) = part.split_once('(').unwrap();
        let (parameters, behind) = behind.split_once(") -> ").unwrap();
        let mut all = vec![];
        for p in parameters.split(',').filter(|p| p.contains(':')) {
            let (n, of) = p.split_once(':').unwrap();
            match of.trim() {
                "&[u16]" => all.extend([named(n, "*const u16"), named(&format!("{}_n", n.trim()), "usize")]),
                "&mut [u16]" => all.extend([named(n, "*mut u16"), named(&format!("{}_n", n.trim()), "usize")]),
                of => all.push(named(n, &lent(structs, of))),
            }
        }
        calls.insert(name.into(), (all, given(structs, behind.split(end).next().unwrap())));
    }
    calls
}

#[test]
fn the_same_calls() {
    let header = of_header();
    assert_eq!(header.len(), 14);
    let (link, _) = between(RAW, "extern \"C\" {", "\n    }");
    assert_eq!(functions(link, "pub fn ", ";", &structs(RAW)), header);
    assert_eq!(functions(EXPORTED, "pub extern \"C\" fn ", "\n", &structs(STRUCTS)), header);
}

#[test]
fn the_library_exports_them() {
    let nm = std::process::Command::new("nm").args(["--defined-only", "--extern-only", env!("BELLGANTLET_FILE")]).output().unwrap();
    let text = String::from_utf8(nm.stdout).unwrap();
    let mut symbols: Vec<&str> = text.lines().filter_map(|l| l.split_whitespace().nth(2)).collect();
    symbols.sort();
    assert_eq!(symbols, of_header().keys().map(|n| &n[..]).collect::<Vec<_>>());
}

fn header_numbers() -> BTreeMap<String, usize> {
    let text = without_comments(HEADER);
    let entries = text.split([',', '{', '}']).filter_map(|e| e.split_once('='));
    entries
        .filter_map(|(n, v)| Some((n.trim().strip_prefix("BELLGANTLET_")?.to_string(), v.trim().parse().ok()?)))
        .collect()
}

#[test]
fn the_same_constants() {
    let mut numbers = header_numbers();
    let ours = [
        ("SIGNATURE", SIGNATURE),
        ("TABLE", TABLE),
        ("WITNESS", WITNESS),
        ("TREE", TREE),
        ("BOOKING", BOOKING),
        ("PATTERN", PATTERN),
        ("CHECK_WORDS", CHECK_WORDS),
        ("LAST_RULE", LAST_RULE as usize),
        ("RULE_NUMBERS", RULE_NUMBERS),
        ("LOG", LOG),
        ("CHARGES", CHARGES),
        ("CHARGE", CHARGE),
        ("CHARGE_BOOKING", CHARGE_BOOKING),
        ("VARIABLES", VARIABLES),
        ("LEVEL", LEVEL as usize),
        ("LAST_LEVEL", LAST_LEVEL as usize),
        ("UNBOUND", UNBOUND as usize),
        ("STACK_EMPTY", stack::EMPTY),
        ("STACK_ENTER", stack::ENTER),
        ("STACK_WITHDRAW", stack::WITHDRAW),
        ("STACK_SET_DEFAULT", stack::SET_DEFAULT),
        ("STACK_DECIDE", stack::DECIDE),
        ("STACK_GAP", stack::GAP),
        ("STACK_COMPILE", stack::COMPILE),
        ("STACK_RUN", stack::RUN),
        ("STACK_PART", stack::PART),
        ("STACK_CHECK_BEGIN", stack::CHECK_BEGIN),
        ("STACK_CHECK_STEP", stack::CHECK_STEP),
        ("STACK_CHECK_END", stack::CHECK_END),
        ("STACK_TALLY", stack::TALLY),
        ("STACK_REPLAN", stack::REPLAN),
        ("STACK_ANY", stack::ANY),
        ("DONE", 0),
    ];
    let most = ours.iter().filter(|(name, _)| name.starts_with("STACK_") && *name != "STACK_ANY").map(|(_, n)| *n).max();
    assert_eq!(most, Some(stack::ANY));
    for (name, value) in ours {
        assert_eq!(numbers.remove(name), Some(value), "{name}");
    }
    for r in Refusal::ALL {
        // SignatureUnlawful is SIGNATURE_UNLAWFUL in the header
        let mut name = String::new();
        for c in format!("{r:?}").chars() {
            if c.is_uppercase() && !name.is_empty() {
                name.push('_');
            }
            name.push(c.to_ascii_uppercase());
        }
        assert_eq!(numbers.remove(&name), Some(r.number() as usize), "{name}");
        let (text, _) = between(HEADER, &format!("case BELLGANTLET_{name}: return \""), "\";");
        assert_eq!(text, r.sentence());
    }
    assert_eq!(numbers, BTreeMap::new(), "only in the header");
}

/// 860160 is 860,160 in a text.
fn written(n: usize) -> String {
    if n < 1000 { n.to_string() } else { format!("{},{:03}", written(n / 1000), n % 1000) }
}

#[test]
fn the_readme_has_the_stacks() {
    assert_eq!([stack::ENTER; 3], [stack::WITHDRAW, stack::SET_DEFAULT, stack::DECIDE]);
    let calls = [
        ("enter, withdraw, set_default, decide", stack::ENTER),
        ("gap", stack::GAP),
        ("compile", stack::COMPILE),
        ("run", stack::RUN),
        ("part", stack::PART),
        ("empty", stack::EMPTY),
        ("check_begin", stack::CHECK_BEGIN),
        ("check_step", stack::CHECK_STEP),
        ("check_end", stack::CHECK_END),
        ("tally", stack::TALLY),
        ("replan", stack::REPLAN),
    ];
    for (call, bytes) in calls {
        assert!(README.contains(&format!("| {call} | {} | `BELLGANTLET_STACK_", written(bytes))), "{call}");
    }
}

#[test]
fn the_same_version() {
    assert_eq!(between(HEADER, "#define BELLGANTLET_VERSION \"", "\"").0, VERSION);
    let number: usize = between(HEADER, "#define BELLGANTLET_VERSION_NUMBER ", " ").0.parse().unwrap();
    let [a, b, c] = VERSION.split('.').map(|n| n.parse::<usize>().unwrap()).collect::<Vec<_>>()[..] else { panic!() };
    assert_eq!(number, a * 10_000 + b * 100 + c);
}
