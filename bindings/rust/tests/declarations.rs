//! The library's functions are declared in Rust as they are in C: the same parameters, in the same order, of the same types.

const C: &str = include_str!("../../c/linenhatch.h");
const RUST: &str = include_str!("../src/ffi.rs");

/// The parameters of a function, each as its name and its Rust type; and the result's type.
type Declaration = (Vec<(String, String)>, String);

fn between<'a>(text: &'a str, start: &str, end: &str) -> &'a str {
    let from = text.find(start).unwrap_or_else(|| panic!("{start} is not declared")) + start.len();
    &text[from..from + text[from..].find(end).expect("its end")]
}

fn in_rust(name: &str) -> Declaration {
    let parameters = between(RUST, &format!("    fn {name}("), ")");
    let parameters = parameters.split(',').filter_map(|parameter| parameter.split_once(':'));
    let result = between(RUST, &format!("    fn {name}("), ";").rsplit("-> ").next().expect("a result");
    (parameters.map(|(name, kind)| (name.trim().into(), kind.trim().into())).collect(), result.trim().into())
}

fn in_c(name: &str) -> Declaration {
    let call = format!(" {name}(\n");
    let parameters = between(C, &call, ")").split(',').map(|parameter| {
        let (kind, name) = parameter.trim().rsplit_once(' ').expect("a type and a name");
        let (pointer, name) = match name.strip_prefix('*') {
            Some(name) if kind.starts_with("const ") => ("*const ", name),
            Some(name) => ("*mut ", name),
            None => ("", name),
        };
        (name.to_string(), format!("{pointer}{}", rust_type(kind.trim_start_matches("const "))))
    });
    let before = &C[..C.find(&call).expect("a declaration")];
    (parameters.collect(), rust_type(before.rsplit('\n').next().expect("a type")).into())
}

fn rust_type(kind: &str) -> &str {
    match kind {
        "uint8_t" => "u8",
        "uint32_t" => "u32",
        "uint64_t" => "u64",
        "int64_t" => "i64",
        "size_t" => "usize",
        other => panic!("another type: {other}"),
    }
}

#[test]
fn the_same_in_both_languages() {
    for (name, parameters) in [
        ("linenhatch_places", 9),
        ("linenhatch_open", 31),
        ("linenhatch_open_tested", 31),
        ("linenhatch_next", 33),
        ("linenhatch_check_names", 7),
        ("linenhatch_merge_base", 23),
        ("linenhatch_graph_length", 7),
        ("linenhatch_write_graph", 9),
        ("linenhatch_feed", 34),
        ("linenhatch_trace", 14),
        ("linenhatch_terms", 33),
    ] {
        let rust = in_rust(name);
        assert_eq!(rust.0.len(), parameters, "{name}");
        assert_eq!(rust, in_c(name), "{name}");
        assert_eq!(rust.0[0], ("width".to_string(), "u32".to_string()), "{name}");
    }
    assert_eq!(in_rust("linenhatch_open_tested"), in_rust("linenhatch_open"));
}

fn defined(name: &str) -> u32 {
    let value = between(C, &format!("#define LINENHATCH_{name} "), "\n").split_whitespace().next().expect("a value");
    value.trim_end_matches('u').parse().expect("a number")
}

#[test]
fn the_same_numbers() {
    for (name, line) in [
        ("RECORD", "RECORD: usize"),
        ("OPEN_NUMBERS", "OPEN_NUMBERS: usize"),
        ("NUMBERS", "CALL_NUMBERS: usize"),
        ("SECONDS", "CALL_SECONDS: usize"),
        ("CHECK_NUMBERS", "CHECK_NUMBERS: usize"),
        ("BASE_NUMBERS", "BASE_NUMBERS: usize"),
        ("GRAPH_NUMBERS", "GRAPH_NUMBERS: usize"),
        ("TRACE_NUMBERS", "TRACE_NUMBERS: usize"),
    ] {
        assert_eq!(between(RUST, &format!("const {line} = "), ";"), defined(name).to_string(), "{name}");
    }
    assert_eq!(defined("SHA1") as usize, linenhatch::ID_BYTES);
    assert_eq!(defined("SHA1") as usize, linenhatch::Kind::Sha1.len_in_bytes());
    assert_eq!(defined("SHA256") as usize, linenhatch::Kind::Sha256.len_in_bytes());
    assert_eq!(defined("MAX_ID_BYTES") as usize, linenhatch::Kind::Sha256.len_in_bytes());
    assert_eq!(defined("NO_ROOM"), linenhatch::NoRoom::NUMBER);
}

/// A refusal has one name and one number in both languages, and the tool prints them: its name in words is its name in C and in Rust.
#[test]
fn the_same_refusals() {
    for refusal in linenhatch::Refusal::ALL {
        let name = refusal.name().to_uppercase().replace(' ', "_");
        assert_eq!(defined(&name), refusal.number(), "{name}");
        let rust: String = refusal.name().split(' ').map(|word| word[..1].to_uppercase() + &word[1..]).collect();
        assert_eq!(format!("{refusal:?}"), rust);
        assert!(refusal.to_string().ends_with(&format!("(refusal {}, {})", refusal.number(), refusal.name())), "{refusal}");
    }
}

/// One word for it: generation, in names and in comments. Document 01 says level (docs/GLOSSARY.md).
#[test]
fn one_word_for_the_generation() {
    for text in [
        C,
        RUST,
        include_str!("../../c/example.c"),
        include_str!("../src/walk.rs"),
        include_str!("../src/bin/linenhatch/args.rs"),
        include_str!("../src/bin/linenhatch/help/list.txt"),
        include_str!("../src/bin/linenhatch/help/write-graph.txt"),
        include_str!("../src/bin/linenhatch/listing.rs"),
        include_str!("../src/bin/linenhatch/table.rs"),
    ] {
        assert!(!text.to_lowercase().contains("level"));
    }
}
