//! The declarations of Rust (`src/raw.rs`) and of C (`c/teurlaks.h`) are those of the exports
//! (`crates/teurlaks_c/src`): the same structs with the same fields, the same functions with the
//! same parameters, and the same statuses.

use std::collections::BTreeMap;
use std::fs;
use std::path::Path;

/// What crosses, by name. Types are as in Rust; a struct is named as in Rust without `Raw`.
#[derive(Debug, Default, PartialEq)]
struct Declarations {
    structs: BTreeMap<String, Vec<(String, String)>>,
    functions: BTreeMap<String, (Vec<(String, String)>, String)>,
    statuses: BTreeMap<String, String>,
}

fn read(path: &str) -> String {
    let path = Path::new(env!("CARGO_MANIFEST_DIR")).join("..").join(path);
    fs::read_to_string(&path).unwrap_or_else(|error| panic!("{}: {error}", path.display()))
}

/// Words and single signs, without comments, strings and, of C, the lines for its compiler.
fn tokens(text: &str) -> Vec<String> {
    let mut tokens: Vec<String> = Vec::new();
    let mut for_cpp = false;
    let mut in_comment = false;
    for line in text.lines() {
        let line = line.trim();
        for_cpp = (for_cpp || line == "#ifdef __cplusplus") && line != "#endif";
        in_comment |= line.starts_with("/*");
        let code = if in_comment || for_cpp || line.starts_with('#') {
            ""
        } else {
            line
        };
        in_comment &= !line.ends_with("*/");
        let code = code
            .split("//")
            .next()
            .and_then(|code| code.split("/*").next())
            .unwrap_or("");
        let mut word = String::new();
        for sign in code.chars().chain([' ']) {
            if sign.is_alphanumeric() || sign == '_' {
                word.push(sign);
                continue;
            }
            if !word.is_empty() {
                tokens.push(std::mem::take(&mut word));
            }
            if !sign.is_whitespace() {
                tokens.push(sign.to_string());
            }
        }
    }
    tokens
}

/// The parts between commas, or whatever else divides them, that stand in no brackets.
fn parts<'t>(tokens: &'t [String], divider: &str) -> Vec<&'t [String]> {
    let mut depth = 0;
    tokens
        .split(|token| {
            match token.as_str() {
                "{" | "(" | "[" => depth += 1,
                "}" | ")" | "]" => depth -= 1,
                _ => {}
            }
            depth == 0 && token == divider
        })
        .filter(|part| !part.is_empty())
        .collect()
}

/// What stands in the brackets that open at the start, and what stands behind them.
fn inside(tokens: &[String]) -> (&[String], &[String]) {
    let mut depth = 0;
    for (place, token) in tokens.iter().enumerate() {
        match token.as_str() {
            "{" | "(" | "[" => depth += 1,
            "}" | ")" | "]" => depth -= 1,
            _ => {}
        }
        if depth == 0 {
            return (&tokens[1..place], &tokens[place + 1..]);
        }
    }
    panic!("brackets that do not close")
}

fn without_raw(name: &str) -> String {
    name.strip_prefix("Raw").unwrap_or(name).to_string()
}

fn slice(name: String, pointer: &str, of: &str) -> Vec<(String, String)> {
    let first = (name.clone(), format!("{pointer} {}", without_raw(of)));
    vec![first, (name + "_len", "usize".into())]
}

/// `name: type` of Rust and of Rattle: none for what takes no bytes, and a pointer and a length for
/// a slice.
fn rust_fields(part: &[String]) -> Vec<(String, String)> {
    let part = if part[0] == "pub" { &part[1..] } else { part };
    if part[0] == "ghost" {
        return Vec::new();
    }
    let name = part[0].clone();
    let words: Vec<&str> = part[2..].iter().map(String::as_str).collect();
    match words.as_slice() {
        ["Global"] => Vec::new(),
        ["&", "mut", "[", of, "]"] => slice(name, "*mut", of),
        ["&", "[", of, "]"] => slice(name, "*const", of),
        ["&", "mut", to] | ["*", "mut", to] => vec![(name, format!("*mut {}", without_raw(to)))],
        ["*", "const", to] => vec![(name, format!("*const {}", without_raw(to)))],
        [one] => vec![(name, without_raw(one))],
        other => panic!("{name}: {other:?}"),
    }
}

/// Of texts of Rust and of Rattle, where `external` says which functions cross.
fn of_rust(text: &str, external: bool, declarations: &mut Declarations) {
    let tokens = tokens(text);
    for place in 0..tokens.len() {
        let name = || tokens[place + 1].clone();
        match tokens[place].as_str() {
            // A struct that crosses is seen beyond its file.
            "struct" if place > 0 && tokens[place - 1] == "pub" => {
                let fields = parts(inside(&tokens[place + 2..]).0, ",")
                    .into_iter()
                    .flat_map(rust_fields)
                    .collect();
                declarations.structs.insert(without_raw(&name()), fields);
            }
            "fn" if !external || (tokens[place - 4] == "extern" && tokens[place - 2] == "C") => {
                let (params, behind) = inside(&tokens[place + 2..]);
                let params = parts(params, ",")
                    .into_iter()
                    .flat_map(rust_fields)
                    .collect();
                let result = if behind[0] == "-" {
                    without_raw(&behind[2])
                } else {
                    "()".into()
                };
                declarations.functions.insert(name(), (params, result));
            }
            // A status is seen beyond its file: `pub const`, `pub(crate) const`.
            "const" if place > 0 && matches!(tokens[place - 1].as_str(), "pub" | ")") => {
                declarations
                    .statuses
                    .insert(name(), tokens[place + 5].clone());
            }
            _ => {}
        }
    }
}

/// `put_reply` as `PutReply`.
fn camel(name: &str) -> String {
    name.split('_')
        .map(|word| word[..1].to_uppercase() + &word[1..])
        .collect()
}

fn c_type(words: &[String]) -> String {
    let (pointer, words) = match words.split_last() {
        Some((last, rest)) if last == "*" && rest[0] == "const" => ("*const ", &rest[1..]),
        Some((last, rest)) if last == "*" => ("*mut ", rest),
        _ => ("", words),
    };
    let name = match words.last().expect("a type").as_str() {
        "uint8_t" => "u8".into(),
        "uint16_t" => "u16".into(),
        "uint32_t" => "u32".into(),
        "uint64_t" => "u64".into(),
        "size_t" => "usize".into(),
        "void" => "()".into(),
        name => camel(name.strip_prefix("teurlaks_").expect("a struct of ours")),
    };
    format!("{pointer}{name}")
}

fn c_field(words: &[String]) -> (String, String) {
    let (name, words) = words.split_last().expect("a field");
    (name.clone(), c_type(words))
}

fn of_c(text: &str) -> Declarations {
    let mut declarations = Declarations::default();
    let tokens = tokens(text);
    for item in parts(&tokens, ";") {
        if item[0] == "enum" {
            for status in parts(inside(&item[1..]).0, ",") {
                let name = status[0]
                    .strip_prefix("TEURLAKS_")
                    .expect("a status of ours");
                declarations.statuses.insert(name.into(), status[2].clone());
            }
        } else if item.last().is_some_and(|last| last == "}") {
            let fields = parts(inside(&item[2..]).0, ";")
                .into_iter()
                .map(c_field)
                .collect();
            declarations.structs.insert(c_type(&item[..2]), fields);
        } else {
            let bracket = item
                .iter()
                .position(|token| token == "(")
                .expect("a function");
            let params = parts(inside(&item[bracket..]).0, ",")
                .into_iter()
                .map(c_field)
                .collect();
            let result = c_type(&item[..bracket - 1]);
            declarations
                .functions
                .insert(item[bracket - 1].clone(), (params, result));
        }
    }
    declarations
}

fn exported() -> Declarations {
    let mut declarations = Declarations::default();
    for file in [
        "handle",
        "share_handle",
        "replies",
        "status",
        "calls",
        "compacting",
        "live_keys",
        "meshing",
        "seats",
        "sessions",
        "walks",
        "stewards",
        "leaving",
        "many",
        "places",
        "key_numbers",
        "recorded_stewards",
    ] {
        of_rust(
            &read(&format!("crates/teurlaks_c/src/{file}.rt")),
            true,
            &mut declarations,
        );
    }
    assert_eq!(declarations.functions.len(), 76);
    assert_eq!(declarations.structs.len(), 30);
    for name in READING {
        let (params, _) = declarations.functions.get_mut(name).expect("an export");
        params[0].1 = "*const Handle".into();
    }
    declarations
}

/// The calls that only read a core. The exports of Rattle declare `&mut Handle` for each; Rust and
/// C declare it as a pointer through which nothing is written.
const READING: [&str; 9] = [
    "teurlaks_contains",
    "teurlaks_get",
    "teurlaks_get_words",
    "teurlaks_get_many",
    "teurlaks_next",
    "teurlaks_next_in_span",
    "teurlaks_totals",
    "teurlaks_estimate",
    "teurlaks_certificate",
];

/// The calls that Rust declares with numbers in place of keys and words.
const BY_NUMBERS: [&str; 7] = [
    "teurlaks_contains",
    "teurlaks_put",
    "teurlaks_get",
    "teurlaks_get_words",
    "teurlaks_set",
    "teurlaks_set_words",
    "teurlaks_free",
];

/// What Rust does not declare, since it never asks: it makes each core and arena by the call with a
/// limit of slots, in a handle without one; it walks no single span of a core; and it knows which
/// arena a seat is of, where C compares their places.
const OF_C_ALONE: [&str; 11] = [
    "teurlaks_new",
    "teurlaks_new_with_spans",
    "teurlaks_arena_open_with_spans",
    "teurlaks_arena_open_recorded_with_spans",
    "teurlaks_arena_open",
    "teurlaks_arena_open_recorded",
    "teurlaks_next_in_span",
    "teurlaks_seat_arena",
    "teurlaks_steward_arena",
    "Place",
    "HAS_CORE",
];

/// The numbers that C's convention hands a parameter over in, if it is a key or a word.
fn numbers((name, kind): (String, String)) -> Vec<(String, String)> {
    let high = match kind.as_str() {
        "Key" => "u32",
        "Word" => "u64",
        _ => return vec![(name, kind)],
    };
    let second = (format!("{name}_high"), high.into());
    vec![(name, "u64".into()), second]
}

#[test]
fn rust_declares_the_exports() {
    let mut declared = Declarations::default();
    of_rust(&read("rust/src/raw.rs"), false, &mut declared);
    let mut exports = exported();
    for name in OF_C_ALONE {
        let is_function = exports.functions.remove(name).is_some();
        let is_struct = exports.structs.remove(name).is_some();
        let is_status = exports.statuses.remove(name).is_some();
        assert!(is_function || is_struct || is_status, "{name} is an export");
    }
    for name in BY_NUMBERS {
        let (params, _) = exports.functions.get_mut(name).expect("an export");
        *params = params.drain(..).flat_map(numbers).collect();
    }
    assert_eq!(declared, exports);
}

#[test]
fn c_declares_the_exports() {
    assert_eq!(of_c(&read("c/teurlaks.h")), exported());
}
