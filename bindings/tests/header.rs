//! The header, the Rattle sources and the declarations of the bindings have
//! the same functions, structs and numbers, name by name and type by type.

use lachsbrille::{commands, errors, log::layout, version, Cause, Fault, Record, NO_ID};
use std::collections::BTreeMap;
use std::fs;
use std::mem;
use std::path::{Path, PathBuf};

/// Structs that cross the boundary: the crate and the name they have in
/// Rattle, and their name in Rust. C's is Rust's in C's spelling.
const STRUCTS: [(&str, &str, &str); 16] = [
    ("working_table", "Record", "Record"),
    ("queries", "DeviceLabels", "DeviceLabels"),
    ("records", "Span", "Span"),
    ("records", "Device", "Device"),
    ("records", "DeviceElement", "Element"),
    ("records", "ProcessData", "ProcessData"),
    ("records", "Property", "Property"),
    ("records", "ValuePresentation", "Presentation"),
    ("session", "Session", "Session"),
    ("c_answers", "StepFields", "Step"),
    ("c_answers", "MessageFields", "MessageFields"),
    ("time_log", "Fields", "LogFields"),
    ("time_log", "Marks", "LogMarks"),
    ("log_reading", "Record", "LogRecord"),
    ("log_writing", "Written", "LogWritten"),
    ("log_reading", "Log", "LogOutcome"),
];

/// Parameters with a short name in Rattle: that name, the type and C's name.
const NAMES: [(&str, &str, &str); 4] = [
    ("p", "&[u8]", "pool"),
    ("res", "&mut f64", "result"),
    ("s", "Session", "session"),
    ("s", "&[u8]", "text"),
];

/// A field whose name in C is a keyword of Rattle and Rust.
const FIELDS: [(&str, &str); 1] = [("element_type", "type")];

/// A result of more bytes is returned through a pointer.
const LARGEST_BY_VALUE: usize = 16;

const SCALARS: [(&str, &str); 9] = [
    ("u8", "uint8_t"),
    ("u16", "uint16_t"),
    ("u32", "uint32_t"),
    ("u64", "uint64_t"),
    ("i32", "int32_t"),
    ("usize", "size_t"),
    ("f32", "float"),
    ("f64", "double"),
    ("bool", "bool"),
];

/// Each function's parameters and result, and each struct's fields, all in C's
/// spelling.
type Declared = BTreeMap<String, Vec<String>>;

#[test]
fn functions_are_the_same_everywhere() {
    let header = functions_of_header();
    assert!(!header.is_empty());
    assert_eq!(functions_of_rattle(), header);
    assert_eq!(functions_of_bindings(), header);
}

/// No other Rust source declares a C function of the library.
#[test]
fn functions_are_declared_once() {
    let mut folders = vec![root()];
    let mut declaring = Vec::new();
    while let Some(folder) = folders.pop() {
        for entry in fs::read_dir(folder).unwrap() {
            let path = entry.unwrap().path();
            let name = path.file_name().unwrap().to_string_lossy();
            if path.is_dir() && name != "target" && !name.starts_with('.') {
                folders.push(path);
            } else if name.ends_with(".rs") {
                let source = fs::read_to_string(&path).unwrap();
                // In two parts, so that this line declares nothing.
                if source.contains(concat!("fn ", "lachsbrille_")) {
                    declaring.push(path.strip_prefix(root()).unwrap().to_owned());
                }
            }
        }
    }
    assert_eq!(declaring, [Path::new("bindings/src/c/declared.rs")]);
}

#[test]
fn structs_are_the_same_everywhere() {
    let header = structs_of_header();
    assert_eq!(header.len(), STRUCTS.len());
    assert_eq!(structs_of_rattle(), header);
    assert_eq!(structs_of_bindings(), header);
}

#[test]
fn refusals_are_the_same() {
    let refusals = enumerators("lachsbrille_refusal");
    let causes = Cause::ALL.iter().map(|cause| {
        let name = c_name(&format!("{cause:?}")).to_uppercase();
        (name, i64::from(cause.number()))
    });
    let ok = ("LACHSBRILLE_OK".to_owned(), 0);
    assert_eq!(refusals, [ok].into_iter().chain(causes).collect());
}

#[test]
fn versions_are_the_same() {
    let number = macro_number("LACHSBRILLE_VERSION");
    assert_eq!(version(), number);
    let (major, minor, patch) = (number / 10_000, number / 100 % 100, number % 100);
    let package = format!("{major}.{minor}.{patch}");
    assert_eq!(env!("CARGO_PKG_VERSION"), package);
}

/// The fields of a record and of a fault are words, and have no other parts.
#[test]
fn words_are_the_same() {
    let words = enumerators("lachsbrille_size")["LACHSBRILLE_FAULT_WORDS"];
    assert_eq!(Fault::WORDS as i64, words);
    let width = format!("pub const WIDTH: usize = {words};");
    assert!(read("crates/faults/src/lib.rt").contains(&width));
    assert_eq!(
        mem::size_of::<Fault>(),
        Fault::WORDS * mem::size_of::<u16>()
    );
    assert_eq!(mem::align_of::<Fault>(), mem::align_of::<u16>());
    let fields = &structs_of_header()["lachsbrille_record"];
    assert_eq!(Record::WORDS, fields.len());
    assert!(fields.iter().all(|field| field.starts_with("uint16_t ")));
}

#[test]
fn the_id_of_no_record_is_the_same() {
    assert_eq!(u32::from(NO_ID), macro_number("LACHSBRILLE_NO_ID"));
}

#[test]
fn commands_are_the_same() {
    let numbers = [
        ("REQUEST_VALUE", commands::REQUEST_VALUE),
        ("VALUE", commands::VALUE),
        ("TIME_INTERVAL", commands::TIME_INTERVAL),
        ("DISTANCE_INTERVAL", commands::DISTANCE_INTERVAL),
        (
            "MINIMUM_WITHIN_THRESHOLD",
            commands::MINIMUM_WITHIN_THRESHOLD,
        ),
        (
            "MAXIMUM_WITHIN_THRESHOLD",
            commands::MAXIMUM_WITHIN_THRESHOLD,
        ),
        ("CHANGE_THRESHOLD", commands::CHANGE_THRESHOLD),
        ("SET_AND_ACKNOWLEDGE", commands::SET_AND_ACKNOWLEDGE),
        ("ACKNOWLEDGE", commands::ACKNOWLEDGE),
    ];
    let numbers = numbers.map(|(name, number)| (format!("LACHSBRILLE_{name}"), i64::from(number)));
    assert_eq!(enumerators("lachsbrille_command"), BTreeMap::from(numbers));
}

#[test]
fn layout_bits_are_the_same() {
    let bits = [
        ("NORTH", layout::NORTH),
        ("EAST", layout::EAST),
        ("UP", layout::UP),
        ("STATUS", layout::STATUS),
        ("PDOP", layout::PDOP),
        ("HDOP", layout::HDOP),
        ("SATELLITES", layout::SATELLITES),
        ("GPS_TIME", layout::GPS_TIME),
        ("GPS_DATE", layout::GPS_DATE),
        ("ALL", layout::ALL),
    ];
    let bits = bits.map(|(name, bit)| (format!("LACHSBRILLE_LAYOUT_{name}"), i64::from(bit)));
    assert_eq!(enumerators("lachsbrille_layout"), BTreeMap::from(bits));
}

#[test]
fn error_bits_are_the_same() {
    let bits = [
        ("COMMAND", errors::COMMAND),
        ("ELEMENT", errors::ELEMENT),
        ("DDI", errors::DDI),
        ("TRIGGER", errors::TRIGGER),
        ("SETTABLE", errors::SETTABLE),
        ("INTERVAL", errors::INTERVAL),
    ];
    let bits = bits.map(|(name, bit)| (format!("LACHSBRILLE_ERROR_{name}"), i64::from(bit)));
    assert_eq!(enumerators("lachsbrille_error"), BTreeMap::from(bits));
}

/// The C tests watch every area that is lent.
#[test]
fn every_function_with_lent_memory_is_watched() {
    let lending = read("tests/interface/lending.c");
    for (name, signature) in functions_of_header() {
        let lends = signature.iter().any(|part| part.contains('*'));
        let watched = lending.contains(&format!("__wrap_{name}("));
        assert_eq!(watched, lends, "{name}");
    }
}

/// The header and the README have the same stack figures, a row for each call.
#[test]
fn stack_figures_are_the_same() {
    let figures = stack_rows(&read("include/lachsbrille.h"), " *     ");
    assert!(!figures.is_empty());
    assert_eq!(figures, stack_rows(&read("README.md"), "| "));
}

/// The rows of a text that end in a number: what comes before it, and the
/// number.
fn stack_rows(text: &str, start: &str) -> Vec<(String, u32)> {
    let rows = text.lines().filter_map(|line| line.strip_prefix(start));
    let row = |line: &str| {
        let plain = line.replace(['|', '`'], " ");
        let words: Vec<&str> = plain.split_whitespace().collect();
        let (figure, name) = words.split_last()?;
        Some((name.join(" "), figure.replace(',', "").parse().ok()?))
    };
    rows.filter_map(row).collect()
}

fn functions_of_header() -> Declared {
    let header = header();
    let starts = header.split(';').filter(|part| part.contains('('));
    let mut declared = Declared::new();
    for function in starts {
        let (head, parameters) = function.split_once('(').unwrap();
        let (parameters, rest) = parameters.split_once(')').unwrap();
        assert_eq!(rest, "", "{function}");
        let (result, name) = head.trim().rsplit_once(' ').unwrap();
        // What comes before the first function, without a semicolon.
        let result = result.rsplit(['{', '}']).next().unwrap().trim();
        let mut signature: Vec<String> = parameters.split(',').map(spelled).collect();
        signature.retain(|parameter| parameter != "void");
        signature.push(result.to_owned());
        assert_eq!(declared.insert(name.to_owned(), signature), None);
    }
    declared
}

fn structs_of_header() -> Declared {
    let mut declared = Declared::new();
    for part in header().split("typedef struct ").skip(1) {
        let (name, rest) = part.split_once('{').unwrap();
        let (fields, also) = rest.split_once('}').unwrap();
        let name = name.trim();
        assert_eq!(also.split(';').next().unwrap().trim(), name);
        let fields = fields.split(';').map(spelled);
        let fields = fields.filter(|field| !field.is_empty()).collect();
        assert_eq!(declared.insert(name.to_owned(), fields), None);
    }
    declared
}

fn enumerators(of: &str) -> BTreeMap<String, i64> {
    let header = header();
    let start = header.split(&format!("enum {of} {{")).nth(1).unwrap();
    let list = start.split('}').next().unwrap();
    let enumerators = list.split(',').map(|enumerator| {
        let (name, number) = enumerator.split_once('=').unwrap();
        let number = number.trim();
        let number = match number.strip_prefix("0x") {
            Some(digits) => i64::from_str_radix(digits, 16),
            None => number.parse(),
        };
        (name.trim().to_owned(), number.unwrap())
    });
    enumerators.collect()
}

/// The number that a macro of the header stands for.
fn macro_number(name: &str) -> u32 {
    let header = read("include/lachsbrille.h");
    let defined = format!("#define {name} ");
    let line = header.lines().find_map(|line| line.strip_prefix(&defined));
    let number = line.unwrap_or_else(|| panic!("{name} is not defined"));
    number.trim_end_matches('u').parse().unwrap()
}

/// The header as C has it, without comments and the preprocessor's lines.
fn header() -> String {
    let mut text = String::new();
    let header = read("include/lachsbrille.h");
    let mut rest = &header[..];
    while let Some((before, comment)) = rest.split_once("/*") {
        text.push_str(before);
        rest = comment.split_once("*/").unwrap().1;
    }
    text.push_str(rest);
    let mut lines = Vec::new();
    let mut is_cplusplus = false;
    for line in text.lines() {
        match line {
            "#ifdef __cplusplus" => is_cplusplus = true,
            "#else" | "#endif" => is_cplusplus = false,
            _ if is_cplusplus || line.starts_with('#') => {}
            _ => lines.push(line),
        }
    }
    lines.join("\n")
}

/// A declaration with one blank between words, and none after a star.
fn spelled(declaration: &str) -> String {
    let words: Vec<&str> = declaration.split_whitespace().collect();
    words.join(" ").replace("* ", "*")
}

fn functions_of_rattle() -> Declared {
    let mut declared = Declared::new();
    for path in sources("crates/terminal_c/src", "rt") {
        let source = fs::read_to_string(path).unwrap();
        for function in source.split("pub extern \"C\" fn ").skip(1) {
            let (name, rest) = function.split_once('(').unwrap();
            let (parameters, rest) = rest.split_once(')').unwrap();
            let result = rest.trim().strip_prefix("->").unwrap();
            let result = result.split_whitespace().next().unwrap();
            let mut result = c_type(result, "terminal", &source);
            let mut signature = Vec::new();
            if size_of(&result).is_some_and(|size| size > LARGEST_BY_VALUE) {
                signature.push(format!("{result} *out"));
                result = "void".to_owned();
            }
            for parameter in list(parameters) {
                let (name, kind) = parameter.split_once(": ").unwrap();
                let is_it = |it: &&(&str, &str, &str)| (it.0, it.1) == (name, kind);
                let name = NAMES.iter().find(is_it).map_or(name, |it| it.2);
                signature.extend(lent(name, kind, &source));
            }
            signature.push(result);
            assert_eq!(declared.insert(name.to_owned(), signature), None);
        }
    }
    declared
}

/// A parameter of Rattle as C has it: a slice is a pointer and a length.
fn lent(name: &str, kind: &str, source: &str) -> Vec<String> {
    let item = |slice: &str| c_type(slice.trim_end_matches(']'), "terminal", source);
    let length = format!("size_t {name}_length");
    if let Some(slice) = kind.strip_prefix("&[") {
        vec![format!("const {} *{name}", item(slice)), length]
    } else if let Some(slice) = kind.strip_prefix("&mut [") {
        vec![format!("{} *{name}", item(slice)), length]
    } else if let Some(number) = kind.strip_prefix("&mut ") {
        vec![format!("{} *{name}", c_type(number, "terminal", source))]
    } else if let Some(lent) = kind.strip_prefix('&') {
        vec![format!(
            "const {} *{name}",
            c_type(lent, "terminal", source)
        )]
    } else {
        vec![format!("{} {name}", c_type(kind, "terminal", source))]
    }
}

/// Bytes of a struct, as the C compilers lay it out.
fn size_of(name: &str) -> Option<usize> {
    let start = format!("{name} size ");
    let layout = read("tests/interface/layout.txt");
    let line = layout.lines().find_map(|line| line.strip_prefix(&start))?;
    line.split(' ').next()?.parse().ok()
}

/// C's name of a type in a source of the crate `home`; the source says which
/// crates other types are from.
fn c_type(name: &str, home: &str, source: &str) -> String {
    if let Some((_, c)) = SCALARS.iter().find(|(scalar, _)| *scalar == name) {
        return (*c).to_owned();
    }
    let owner = source.lines().find_map(|line| {
        let path = line.strip_prefix("use ")?.strip_suffix(';')?;
        let (owner, used) = path.split_once("::")?;
        let mut used = used.trim_matches(['{', '}']).split(", ");
        used.any(|used| used == name).then_some(owner)
    });
    let owner = owner.unwrap_or(home);
    let found = STRUCTS.iter().find(|it| (it.0, it.1) == (owner, name));
    c_name(
        found
            .unwrap_or_else(|| panic!("{owner}::{name} is not known"))
            .2,
    )
}

fn structs_of_rattle() -> Declared {
    let mut declared = Declared::new();
    for (owner, name, rust) in STRUCTS {
        let heads = ["Clone, Copy", "Clone, Copy, Default"]
            .map(|derived| format!("#[repr(C)]\n#[derive({derived})]\npub struct {name} {{"));
        let sources = sources(&format!("crates/{owner}/src"), "rt");
        let (head, source) = sources
            .into_iter()
            .map(|path| fs::read_to_string(path).unwrap())
            .find_map(|source| {
                let head = heads.iter().find(|head| source.contains(*head))?;
                Some((head, source))
            })
            .unwrap_or_else(|| panic!("{owner}::{name} is not there"));
        let fields = source.split_once(head.as_str()).unwrap().1;
        let fields = fields.split_once("\n}").unwrap().0;
        let fields = fields_of(fields, |kind| c_type(kind, owner, &source));
        declared.insert(c_name(rust), fields);
    }
    declared
}

fn functions_of_bindings() -> Declared {
    let source = read("bindings/src/c/declared.rs");
    let mut declared = Declared::new();
    for function in source.split("pub fn ").skip(1) {
        let (name, rest) = function.split_once('(').unwrap();
        let (parameters, rest) = rest.split_once(')').unwrap();
        let result = rest.split_once(';').unwrap().0;
        let result = result.strip_prefix(" -> ").map(bound_type);
        let mut signature: Vec<String> = list(parameters)
            .map(|parameter| {
                let (name, kind) = parameter.split_once(": ").unwrap();
                if let Some(kind) = kind.strip_prefix("*const ") {
                    format!("const {} *{name}", bound_type(kind))
                } else if let Some(kind) = kind.strip_prefix("*mut ") {
                    format!("{} *{name}", bound_type(kind))
                } else {
                    format!("{} {name}", bound_type(kind))
                }
            })
            .collect();
        signature.push(result.unwrap_or_else(|| "void".to_owned()));
        assert_eq!(declared.insert(name.to_owned(), signature), None);
    }
    declared
}

fn structs_of_bindings() -> Declared {
    let source = read("bindings/src/c/structs.rs");
    let mut declared = Declared::new();
    for part in source.split("pub struct ").skip(1) {
        let (name, rest) = part.split_once(" {").unwrap();
        let fields = rest.split_once("\n}").unwrap().0;
        declared.insert(c_name(name), fields_of(fields, bound_type));
    }
    declared
}

fn bound_type(name: &str) -> String {
    let scalar = SCALARS.iter().find(|(scalar, _)| *scalar == name);
    scalar.map_or_else(|| c_name(name), |(_, c)| (*c).to_owned())
}

/// Fields of a struct in Rattle or Rust as C has them.
fn fields_of(fields: &str, c_type: impl Fn(&str) -> String) -> Vec<String> {
    let fields = fields
        .lines()
        .filter_map(|line| line.trim().strip_prefix("pub "));
    let fields = fields.map(|field| {
        let (name, kind) = field.trim_end_matches(',').split_once(": ").unwrap();
        let renamed = FIELDS.iter().find(|(here, _)| *here == name);
        let name = renamed.map_or(name, |(_, c)| c);
        match kind.strip_prefix('[') {
            Some(array) => {
                let (item, count) = array.trim_end_matches(']').split_once("; ").unwrap();
                format!("{} {name}[{count}]", c_type(item))
            }
            None => format!("{} {name}", c_type(kind)),
        }
    });
    fields.collect()
}

/// `LogOutcome` as `lachsbrille_log_outcome`.
fn c_name(rust: &str) -> String {
    let mut name = "lachsbrille".to_owned();
    for letter in rust.chars() {
        if letter.is_uppercase() {
            name.push('_');
        }
        name.extend(letter.to_lowercase());
    }
    name
}

fn list(parameters: &str) -> impl Iterator<Item = &str> {
    let parameters = parameters.split(',').map(str::trim);
    parameters.filter(|parameter| !parameter.is_empty())
}

fn root() -> PathBuf {
    Path::new(env!("CARGO_MANIFEST_DIR")).join("..")
}

fn read(path: &str) -> String {
    fs::read_to_string(root().join(path)).unwrap_or_else(|error| panic!("{path}: {error}"))
}

fn sources(folder: &str, extension: &str) -> Vec<PathBuf> {
    let entries = fs::read_dir(root().join(folder)).unwrap();
    let paths = entries.map(|entry| entry.unwrap().path());
    let paths = paths.filter(|path| path.extension().is_some_and(|it| it == extension));
    paths.collect()
}
