//! The declarations in `src/sys.rs` are those of `include/ngiyarumba.h`, call by call and field by field: a linker would not say.

use std::collections::BTreeMap;

const HEADER: &str = include_str!("../../include/ngiyarumba.h");
const SYS: &str = include_str!("../src/sys.rs");

/// The answers, by their names in the header and here.
const ANSWERS: [(&str, &str); 5] = [
    ("ngi_drawn", "Drawn"),
    ("ngi_read_answer", "ReadAnswer"),
    ("ngi_walk_answer", "WalkAnswer"),
    ("ngi_flip_answer", "FlipAnswer"),
    ("ngi_run_answer", "RunAnswer"),
];

/// What a call takes and gives, in the words of Rust.
type Calls = BTreeMap<String, (Vec<String>, String)>;

fn without_comments(header: &str) -> String {
    let parts = header.split("/*");
    parts
        .map(|part| part.split_once("*/").map_or(part, |(_, rest)| rest))
        .collect()
}

/// What a macro stands for, in a header whose continued lines are joined.
fn meaning(joined: &str, head: &str) -> String {
    let define = format!("#define {head}");
    let mut meanings = joined.lines().filter_map(|line| line.strip_prefix(&define));
    let first = meanings.next().unwrap_or_else(|| panic!("no {define}"));
    first.trim().to_string()
}

/// The calls as a compiler sees them: the parameters of the tables are written out in each.
fn written_out() -> String {
    let joined = without_comments(HEADER).replace("\\\n", " ");
    let tables = meaning(&joined, "NGI_TABLE_PARAMETERS(fixed, moved, marked)");
    let written = meaning(&joined, "NGI_WRITTEN");
    let lines = joined.lines().filter(|line| !line.starts_with('#'));
    let declared = lines.collect::<Vec<_>>().join("\n");
    let mut parts = declared.split("NGI_TABLE_PARAMETERS(");
    let first = parts.next().unwrap().to_string();
    parts.fold(first, |before, part| {
        let (words, rest) = part.split_once(')').unwrap();
        before + &with_words(&tables, &words.replace("NGI_WRITTEN", &written)) + rest
    })
}

/// The parameters of the tables with these words, `const` or nothing, for their three kinds.
fn with_words(tables: &str, words: &str) -> String {
    let kinds = ["fixed ", "moved ", "marked "].into_iter();
    let given = kinds.zip(words.split(',').map(str::trim));
    given.fold(tables.to_string(), |text, (kind, word)| {
        text.replace(kind, &format!("{word} "))
    })
}

fn in_rust(kind: &str) -> String {
    match kind {
        "size_t" => "usize".into(),
        answer if answer.starts_with("ngi_") => {
            let named = ANSWERS.iter().find(|(name, _)| *name == answer);
            named.unwrap_or_else(|| panic!("{answer}")).1.into()
        }
        number => number.replace("uint", "u").replace("_t", ""),
    }
}

fn parameter_in_rust(parameter: &str) -> String {
    let (constant, plain) = match parameter.strip_prefix("const ") {
        Some(plain) => ("const", plain),
        None => ("mut", parameter),
    };
    let (kind, name) = plain.split_once(' ').expect("a type and a name");
    match name.strip_prefix('*') {
        Some(name) => format!("{name}: *{constant} {}", in_rust(kind)),
        None => format!("{name}: {}", in_rust(kind)),
    }
}

fn listed(parameters: &str) -> impl Iterator<Item = &str> {
    let trimmed = parameters.split(',').map(str::trim);
    trimmed.filter(|parameter| !parameter.is_empty())
}

fn calls_of_the_header() -> Calls {
    let plain = written_out();
    let calls = plain.split(';').filter_map(|part| {
        let (before, parameters) = part.trim().strip_suffix(')')?.split_once('(')?;
        let (kind, name) = before.lines().last()?.split_once(' ')?;
        let parameters = listed(parameters).map(parameter_in_rust).collect();
        Some((name.to_string(), (parameters, in_rust(kind))))
    });
    calls.collect()
}

fn calls_declared_here() -> Calls {
    let declared = SYS.split("    fn ngi_").skip(1).map(|part| {
        let (name, rest) = part.split_once('(').unwrap();
        let (parameters, rest) = rest.split_once(')').unwrap();
        let kind = rest.split([';', '{']).next().unwrap();
        let kind = kind.trim().trim_start_matches("-> ").to_string();
        let parameters = listed(parameters).map(str::to_string).collect();
        (format!("ngi_{name}"), (parameters, kind))
    });
    declared.collect()
}

#[test]
fn every_call_is_declared_as_in_the_header() {
    let calls = calls_of_the_header();
    assert_eq!(calls.len(), 11);
    assert_eq!(calls, calls_declared_here());
}

fn fields_of_the_header(answer: &str) -> Vec<String> {
    let plain = without_comments(HEADER);
    let (before, _) = plain.split_once(&format!("}} {answer};")).unwrap();
    let (_, fields) = before.rsplit_once("typedef struct {").unwrap();
    let lines = fields.split(';').map(str::trim);
    lines
        .filter(|line| !line.is_empty())
        .flat_map(fields_in_rust)
        .collect()
}

/// One type, then the names of the fields that have it.
fn fields_in_rust(line: &str) -> Vec<String> {
    let (kind, names) = line.split_once(' ').expect("a type and names");
    let kind = in_rust(kind);
    listed(names)
        .map(|name| format!("{name}: {kind}"))
        .collect()
}

fn fields_declared_here(answer: &str) -> Vec<String> {
    let head = format!("#[repr(C)]\npub struct {answer} {{");
    let (fields, _) = SYS.split_once(&head).unwrap().1.split_once('}').unwrap();
    let fields = fields.replace(
        "counts: Counts",
        "terms: u32, clauses: u32, literals: u32, uncovered: u32",
    );
    let plain = listed(&fields).map(|field| field.trim_start_matches("pub "));
    plain.map(str::to_string).collect()
}

#[test]
fn every_answer_has_the_fields_of_the_header() {
    for (in_header, here) in ANSWERS {
        assert_eq!(
            fields_of_the_header(in_header),
            fields_declared_here(here),
            "{here}"
        );
    }
}
