//! The C header: its functions are those that the package calls, with the same parameters; its sizes are the package's;
//! and its places and numbers are those that the calls use.

use fontarelga::*;

const HEADER: &str = include_str!("../../examples/c/fontarelga.h");
const INTERFACE: &str = include_str!("../src/interface.rs");

/// The declarations that begin with these words, each as its name and its parameters.
fn declarations<'a>(text: &'a str, start: &str) -> Vec<(&'a str, Vec<&'a str>)> {
    let declaration = |text: &'a str| {
        let (name, rest) = text.split_once('(')?;
        let (parameters, _) = rest.split_once(')')?;
        Some((name, parameters.split(',').map(str::trim).filter(|parameter| !parameter.is_empty()).collect()))
    };
    text.split(start).skip(1).filter_map(declaration).collect()
}

/// A parameter of the header, `const uint64_t *state`, `uint64_t session[..]` or `size_t state_len`, as Rust has it.
fn in_rust(parameter: &str) -> String {
    let (constant, rest) = parameter.strip_prefix("const ").map_or((false, parameter), |rest| (true, rest));
    let (kind, name) = rest.split_once(' ').expect("a type and a name");
    let kind = match kind {
        "uint64_t" => "u64",
        "uint8_t" => "u8",
        "size_t" => "usize",
        _ => panic!("no type of the interface: {parameter}"),
    };
    let plain = name.trim_start_matches('*').split('[').next().expect("a name").trim_end_matches('_');
    match (name == plain || name == "class_", constant) {
        (true, _) => format!("{plain}: {kind}"),
        (false, true) => format!("{plain}: *const {kind}"),
        (false, false) => format!("{plain}: *mut {kind}"),
    }
}

#[test]
fn functions() {
    let mut of_header = Vec::new();
    for (name, parameters) in declarations(HEADER, "\nuint64_t fontarelga_") {
        of_header.push((name, parameters.into_iter().map(in_rust).collect::<Vec<_>>()));
    }
    let mut of_interface = Vec::new();
    for (name, parameters) in declarations(INTERFACE, "pub fn fontarelga_") {
        of_interface.push((name, parameters.into_iter().map(String::from).collect::<Vec<_>>()));
    }
    assert_eq!(of_header, of_interface);
    assert_eq!(of_header.len(), 14);
}

/// The number that the header gives to a name, which stands after `FONTARELGA_`.
fn stated(name: &str) -> usize {
    let start = format!("#define FONTARELGA_{name} ");
    let number = HEADER.lines().find_map(|line| line.strip_prefix(&start));
    number.and_then(|number| number.parse().ok()).unwrap_or_else(|| panic!("the header has no number {name}"))
}

#[test]
fn sizes() {
    let sizes = [
        ("MOST_NETS", MOST_NETS),
        ("MOST_RECEIVERS", MOST_RECEIVERS),
        ("MOST_VECTORS", MOST_VECTORS),
        ("MOST_FILE_BYTES", MOST_FILE_BYTES),
        ("CHECK_STACK_BYTES", CHECK_STACK_BYTES),
        ("OTHER_STACK_BYTES", OTHER_STACK_BYTES),
        ("VERDICT_WORDS", VERDICT_WORDS),
        ("SHORTENED_WORDS", SHORTENED_WORDS),
        ("FINDING_WORDS", FINDING_WORDS),
        ("SESSION_WORDS", RECORD_WORDS),
        ("MOST_FIRST_VECTORS", MOST_FIRST_VECTORS),
        ("MOST_SECOND_VECTORS", MOST_SECOND_VECTORS),
        ("JOB_WORDS", JOB_WORDS),
    ];
    for (name, size) in sizes {
        assert_eq!(stated(name), size, "{name}");
    }
}

#[test]
fn gates() {
    assert_eq!([stated("GATE_OR"), stated("GATE_AND")], [OR, AND].map(|gate| gate as usize));
}

#[test]
fn kinds() {
    let kinds = [stated("KIND_PARALLEL"), stated("KIND_SEQUENTIAL")];
    assert_eq!(kinds, [PARALLEL, SEQUENTIAL].map(|kind| kind as usize));
}

#[test]
fn verdict() {
    let mut verdict = [0; VERDICT_WORDS];
    assert_eq!(raw::check(4, 4, &[1, 2, 4, 8], &mut verdict), 0);
    let word = |name: &str| verdict[stated(name)];
    assert_eq!((word("VERDICT_IS_PAIR"), word("VERDICT_A"), word("VERDICT_B")), (1, 0, 15));
}

#[test]
fn shortened() {
    let (mut kept, mut shortened) = ([9; 7], [0; SHORTENED_WORDS]);
    assert_eq!(raw::shorten(4, 2, &[0, 1, 2, 4, 8, 3, 5], 6, &mut kept, &mut shortened), 0);
    assert_eq!(kept, [0, 1, 2, 4, 8, 9, 9]);
    let word = |name: &str| shortened[stated(name)];
    assert_eq!((word("SHORTENED_KEPT"), word("SHORTENED_CHECKS"), word("SHORTENED_FLOOR")), (5, 6, 4));
}

#[test]
fn own_receivers() {
    let mut receivers = [9; MOST_RECEIVERS];
    assert_eq!(raw::own_receivers(3, &mut receivers), 0);
    assert_eq!(receivers[..4], [0, 1, 2, 9]);
}

#[test]
fn finding() {
    let mut table = [0; 4 * FINDING_WORDS];
    assert_eq!(raw::findings(4, &[3, 3, 0, 8], &mut table), 0);
    let word = |name: &str| table[stated(name)];
    assert_eq!((word("FINDING_KIND"), word("FINDING_REACH"), word("FINDING_PARTNERS")), (2, 3, 2));
}

#[test]
fn session() {
    let (mut record, mut first, mut second) = ([9; RECORD_WORDS], [0; MOST_FIRST_VECTORS], [0; MOST_SECOND_VECTORS]);
    let step = |record: &[u64; RECORD_WORDS]| record[stated("SESSION_STEP")] as usize;

    // Receiver 4 is a second one on net 2, and floats as the first one does.
    let board = Board::with(Network::new(4).with_level(0).with_gate(AND), &[0, 1, 2, 3, 2]);
    let holds_board = |record: &[u64; RECORD_WORDS]| {
        let numbers = ["SESSION_NETS", "SESSION_LEVEL", "SESSION_GATE", "SESSION_RECEIVERS"];
        assert_eq!(numbers.map(|name| record[stated(name)]), [4, 0, 1, 5]);
        assert_eq!(record[stated("SESSION_OWNERS")..][..6], [0, 1, 2, 3, 2, 0]);
    };

    assert_eq!(raw::begin(&mut record, board, &mut first), 0);
    assert_eq!(step(&record), stated("STEP_FIRST"));
    holds_board(&record);

    assert_eq!(raw::first_answers(&mut record, &[11, 0, 0, 8], &mut second), 0);
    assert_eq!(step(&record), stated("STEP_SECOND"));
    assert_eq!(record[stated("SESSION_FIRST_ANSWERS")..][..5], [11, 0, 0, 8, 0]);
    holds_board(&record);

    assert_eq!(raw::second_answers(&mut record, &[11, 8, 8, 11]), 0);
    assert_eq!(step(&record), stated("STEP_FINISHED"));
    assert_eq!(record[stated("SESSION_REACHES")..][..6], [3, 3, 0, 8, 0, 0]);
    assert_eq!(record[stated("SESSION_SPENT")], 8);
    assert_eq!(stated("SESSION_SPENT") + 1, RECORD_WORDS);
    holds_board(&record);
}

#[test]
fn job() {
    let network = Network::new(4).with_level(0).with_gate(AND);
    for kind in [PARALLEL, SEQUENTIAL] {
        let written = Job { network, class: 3, kind, vectors: vec![0, 1], responses: vec![] };
        let (mut vectors, mut responses, mut job) = ([0; 2], [0; 0], [9; JOB_WORDS]);
        assert_eq!(raw::read_job(&written.write().unwrap(), &mut vectors, &mut responses, &mut job), 0);
        let word = |name: &str| job[stated(name)];
        assert_eq!(["JOB_NETS", "JOB_LEVEL", "JOB_GATE", "JOB_CLASS"].map(word), [4, 0, 1, 3]);
        assert_eq!(["JOB_KIND", "JOB_VECTORS", "JOB_RESPONSES"].map(word), [kind, 2, 0]);
    }
}
