//! Reads structs, functions and enum values out of the header, the declarations in `raw.rs` and the Rattle
//! sources, and writes their types in one common way: `u64`, `[u8;64]`, `layout`, `*const u8`.
use std::collections::BTreeMap;
use std::path::{Path, PathBuf};

/// A name with its type: a field of a struct or a parameter of a function.
pub type Named = (String, String);

/// The structs of a source, by name, with their fields in order.
pub type Structs = BTreeMap<String, Vec<Named>>;

#[derive(Debug, PartialEq)]
pub struct Function {
    pub parameters: Vec<Named>,
    pub result: String,
}

/// The functions of a source, by name.
pub type Functions = BTreeMap<String, Function>;

pub fn repository() -> PathBuf {
    Path::new(env!("CARGO_MANIFEST_DIR")).join("../..")
}

pub fn file(path: &str) -> String {
    let path = repository().join(path);
    std::fs::read_to_string(&path).unwrap_or_else(|why| panic!("{}: {why}", path.display()))
}

/// Every Rattle source of the repository, one after the other.
pub fn all_rattle() -> String {
    let mut text = String::new();
    for folder in std::fs::read_dir(repository().join("crates")).expect("crates/ is there") {
        let Ok(sources) = std::fs::read_dir(folder.expect("a crate").path().join("src")) else {
            continue;
        };
        for source in sources {
            text += &std::fs::read_to_string(source.expect("a source").path()).expect("a text");
        }
    }
    text
}

/// The words and signs of a source, without its comments.
pub fn tokens(source: &str) -> Vec<String> {
    let mut found = Vec::new();
    let mut rest = source;
    while let Some(first) = rest.chars().next() {
        let end = if rest.starts_with("/*") {
            rest.find("*/").expect("the comment ends") + 2
        } else if rest.starts_with("//") {
            rest.find('\n').unwrap_or(rest.len())
        } else if is_word(first) {
            rest.find(|c| !is_word(c)).unwrap_or(rest.len())
        } else {
            first.len_utf8()
        };
        let comment = rest.starts_with("/*") || rest.starts_with("//");
        if !comment && !first.is_whitespace() {
            found.push(rest[..end].to_string());
        }
        rest = &rest[end..];
    }
    found
}

fn is_word(c: char) -> bool {
    c.is_alphanumeric() || c == '_'
}

/// The tokens from `start` up to the bracket that closes the one before `start`.
fn enclosed(tokens: &[String], start: usize) -> &[String] {
    let mut depth = 1;
    let opens = |t: &str| matches!(t, "(" | "[" | "{");
    let closes = |t: &str| matches!(t, ")" | "]" | "}");
    let length = tokens[start..].iter().position(|t| {
        depth += opens(t) as i32 - closes(t) as i32;
        depth == 0
    });
    &tokens[start..start + length.expect("every bracket is closed")]
}

fn split<'a>(tokens: &'a [String], at: &'a str) -> impl Iterator<Item = &'a [String]> {
    tokens.split(move |t| t == at).filter(|part| !part.is_empty())
}

/// The common name of a plain type: `uint64_t` and `u64`, `splicebell_text_read` and `TextRead`.
fn plain(word: &str) -> String {
    let known = match word {
        "uint64_t" | "u64" => "u64",
        "uint8_t" | "u8" => "u8",
        "size_t" | "usize" => "usize",
        "bool" => "bool",
        _ => return in_lower_case(word.strip_prefix("splicebell_").unwrap_or(word)),
    };
    known.to_string()
}

/// A name of several words as C writes it: `text_read` for `TextRead`.
pub fn in_lower_case(name: &str) -> String {
    let mut lower = String::new();
    for letter in name.chars() {
        if letter.is_uppercase() && !lower.is_empty() {
            lower.push('_');
        }
        lower.extend(letter.to_lowercase());
    }
    lower
}

// ---- C

pub fn c_structs(source: &str) -> Structs {
    let tokens = tokens(source);
    let heads =
        tokens.windows(4).enumerate().filter(|(_, t)| t[0] == "typedef" && t[1] == "struct");
    heads.map(|(i, t)| (plain(&t[2]), c_fields(enclosed(&tokens, i + 4)))).collect()
}

fn c_fields(body: &[String]) -> Vec<Named> {
    let of_one_type = |line: &[String]| {
        let of = plain(&line[0]);
        let names = split(&line[1..], ",").map(|declared| match declared {
            [name] => (name.clone(), of.clone()),
            [name, _, length, _] => (name.clone(), format!("[{of};{length}]")),
            other => panic!("an unknown field: {other:?}"),
        });
        names.collect::<Vec<_>>()
    };
    split(body, ";").flat_map(of_one_type).collect()
}

/// The values of the only enum.
pub fn c_enum(source: &str) -> Vec<(String, u64)> {
    let tokens = tokens(source);
    let start = tokens.iter().position(|t| t == "enum").expect("the header has an enum") + 3;
    let value = |line: &[String]| match line {
        [name, _, number] => (name.clone(), number.parse().expect("a number")),
        other => panic!("an unknown enum value: {other:?}"),
    };
    split(enclosed(&tokens, start), ",").map(value).collect()
}

pub fn c_functions(source: &str) -> Functions {
    let tokens = tokens(source);
    let is_head = |t: &[String]| t[1].starts_with("splicebell_") && t[2] == "(";
    let heads = tokens.windows(3).enumerate().filter(|(_, t)| is_head(t));
    heads
        .map(|(i, t)| {
            let parameters = split(enclosed(&tokens, i + 3), ",").map(c_parameter).collect();
            (t[1].clone(), Function { parameters, result: plain(&t[0]) })
        })
        .collect()
}

fn c_parameter(words: &[String]) -> Named {
    let words: Vec<&str> = words.iter().map(String::as_str).collect();
    match words[..] {
        ["const", of, "*", name] => (name.into(), format!("*const {}", plain(of))),
        [of, "*", name] => (name.into(), format!("*mut {}", plain(of))),
        [of, name] => (name.into(), plain(of)),
        _ => panic!("an unknown parameter: {words:?}"),
    }
}

// ---- Rust and Rattle, which write structs and functions alike

/// The structs marked `#[repr(C)]`.
pub fn structs(source: &str) -> Structs {
    let tokens = tokens(source);
    let mut found = Structs::new();
    let mut marked = false;
    for (i, token) in tokens.iter().enumerate() {
        match token.as_str() {
            "repr" => marked = tokens[i + 2] == "C",
            "fn" | "enum" => marked = false,
            "struct" if std::mem::take(&mut marked) => {
                let fields = parameters(enclosed(&tokens, i + 3));
                let twice = found.insert(plain(&tokens[i + 1]), fields);
                assert!(twice.is_none(), "two structs {} are marked repr(C)", tokens[i + 1]);
            }
            _ => {}
        }
    }
    found
}

/// The functions whose name begins as every exported one does.
pub fn functions(source: &str) -> Functions {
    let tokens = tokens(source);
    let is_head = |t: &[String]| t[0] == "fn" && t[1].starts_with("splicebell_");
    let heads = tokens.windows(2).enumerate().filter(|(_, t)| is_head(t));
    heads.map(|(i, t)| (t[1].clone(), function(&tokens, i + 2))).collect()
}

/// The names of the functions that a Rattle source exports.
pub fn exported(source: &str) -> Vec<String> {
    let tokens = tokens(source);
    let mark = ["unsafe", "(", "no_mangle", ")", "]", "pub", "extern", "\"", "C", "\"", "fn"];
    tokens.windows(12).filter(|t| t[..11] == mark).map(|t| t[11].clone()).collect()
}

fn function(tokens: &[String], after_name: usize) -> Function {
    assert_eq!(tokens[after_name], "(", "an exported function has no type parameters");
    let inside = enclosed(tokens, after_name + 1);
    let arrow = after_name + 1 + inside.len() + 1;
    assert_eq!(tokens[arrow..arrow + 2], ["-", ">"], "every exported function answers something");
    Function { parameters: parameters(inside), result: plain(&tokens[arrow + 2]) }
}

/// Fields or parameters, `[pub] name: type, ...`; a slice counts as a pointer and a length.
fn parameters(inside: &[String]) -> Vec<Named> {
    let one = |words: &[String]| {
        let words: Vec<&str> = words.iter().map(String::as_str).filter(|w| *w != "pub").collect();
        let named = |of: String| vec![(words[0].to_string(), of)];
        let array = |of: &str, length: &str| format!("[{};{length}]", plain(of));
        let slice = |kind: &str, of: String| {
            let length = (format!("{}_len", words[0]), "usize".to_string());
            vec![(words[0].to_string(), format!("*{kind} {of}")), length]
        };
        match words[1..] {
            [":", of] => named(plain(of)),
            [":", "[", of, ";", length, "]"] => named(array(of, length)),
            [":", "*", kind, of] => named(format!("*{kind} {}", plain(of))),
            [":", "&", "[", of, "]"] => slice("const", plain(of)),
            [":", "&", "[", "[", of, ";", length, "]", "]"] => slice("const", array(of, length)),
            [":", "&", "mut", "[", of, "]"] => slice("mut", plain(of)),
            _ => panic!("an unknown field or parameter: {words:?}"),
        }
    };
    split(inside, ",").flat_map(one).collect()
}
