//! The declarations of `src/ffi.rs` are those of `include/kevdarosh.h`: every function with each argument, every struct with each field, in their order. On a 64-bit
//! processor a `usize` in place of a `kev_size` would do no harm, and on a 32-bit one not in every place; here it is found on each.

const HEADER: &str = include_str!("../../../include/kevdarosh.h");
const FFI: &str = include_str!("../src/ffi.rs");

/// A type of C in Rust's words.
fn of_c(c: &str) -> String {
    match c {
        "uint64_t" => "u64".into(),
        "kev_size" => "Size".into(),
        "uint8_t *" => "*mut u8".into(),
        "const uint8_t *" => "*const u8".into(),
        "uint64_t *" => "*mut u64".into(),
        "const uint64_t *" => "*const u64".into(),
        "struct kev_node" => "NodeNumber".into(),
        _ => {
            let name = c.strip_prefix("struct kev_").unwrap_or_else(|| panic!("a type that is not known: {c}"));
            name.split('_').map(|word| word[..1].to_uppercase() + &word[1..]).collect()
        }
    }
}

/// `const uint8_t *key` is `key: *const u8`.
fn declared(c: &str) -> String {
    let name = c.trim().rsplit([' ', '*']).next().unwrap();
    format!("{name}: {}", of_c(c.trim().strip_suffix(name).unwrap().trim()))
}

fn sorted(lines: impl Iterator<Item = String>) -> Vec<String> {
    let mut lines: Vec<String> = lines.collect();
    lines.sort();
    lines
}

/// The header's text without comments and directives, on one line.
fn bare() -> String {
    let text: String = HEADER.split("/*").enumerate().map(|(i, part)| if i == 0 { part } else { part.split_once("*/").unwrap().1 }).collect();
    text.lines().filter(|line| !line.starts_with('#')).flat_map(str::split_whitespace).collect::<Vec<_>>().join(" ")
}

#[test]
fn every_function_is_declared_as_in_the_header() {
    let text = bare();
    let declarations = text.split(';').map(|piece| piece.trim_start_matches([' ', '}'])).filter(|piece| piece.ends_with(')') && !piece.contains(['{', '=']));
    let header = sorted(declarations.filter_map(|piece| {
        let (front, arguments) = piece.strip_suffix(')')?.split_once('(')?;
        let (result, name) = front.rsplit_once(' ')?;
        let arguments: Vec<String> = arguments.split(',').map(declared).collect();
        Some(format!("fn {name}({}) -> {};", arguments.join(", "), of_c(result)))
    }));
    let block = FFI.split_once("unsafe extern \"C\" {\n").unwrap().1.split_once("\n}\n").unwrap().0;
    let ours = sorted(block.lines().map(|line| line.trim().to_string()));
    assert!(header.len() > 50, "{header:?}");
    assert_eq!(ours, header);
}

#[test]
fn every_struct_is_declared_as_in_the_header() {
    let text = bare();
    let header = sorted(text.split("struct kev_").skip(1).filter_map(|piece| {
        let (name, rest) = piece.split_once(" { ").filter(|(name, _)| !name.contains([' ', ')']))?;
        let fields: Vec<String> = rest.split_once('}')?.0.trim().split_terminator(';').map(declared).collect();
        Some(format!("{} {{ {} }}", of_c(&format!("struct kev_{name}")), fields.join(", ")))
    }));
    let ours = sorted(FFI.split("#[repr(C)]").skip(1).map(|piece| {
        let (name, rest) = piece.split_once("pub struct ").unwrap().1.split_once(" {").unwrap();
        let fields: Vec<&str> = rest.split_once('}').unwrap().0.lines().filter_map(|line| line.trim().strip_prefix("pub ")).collect();
        format!("{name} {{ {} }}", fields.join(" ").trim_end_matches(','))
    }));
    assert!(header.len() > 10, "{header:?}");
    assert_eq!(ours, header);
}

#[test]
fn every_size_is_that_of_the_header() {
    let sizes: Vec<(&str, usize)> = HEADER
        .lines()
        .filter_map(|line| line.strip_prefix("#define KEV_")?.split_once(' '))
        .filter_map(|(name, rest)| Some((name, rest.split_whitespace().next()?.parse().ok()?)))
        .collect();
    use kevdarosh::{DELTA, DIGEST, GRID, KEY, LISTING, MTU_LEAST, NODES, OVERRIDES, PEERS, RECORDS, TABLE, VALUE};
    let ours = [
        ("TABLE", TABLE),
        ("NODES", NODES),
        ("RECORDS", RECORDS),
        ("KEY", KEY),
        ("VALUE", VALUE),
        ("DIGEST", DIGEST),
        ("MTU_LEAST", MTU_LEAST),
        ("DELTA", DELTA),
        ("LISTING", LISTING),
        ("OVERRIDES", OVERRIDES),
        ("GRID", GRID),
        ("PEERS", PEERS),
    ];
    for size in ours {
        assert!(sizes.contains(&size), "{size:?} of {sizes:?}");
    }
}
