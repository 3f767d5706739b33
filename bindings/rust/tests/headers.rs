//! What this crate and rcuo-sys say is what the headers in C say, and what the linked library is. Not in the package, which has no
//! headers.

use rcuo::parts::Settings;

const SLOTS: &str = include_str!("../../../include/rcuo.h");
const RUNTIME: &str = include_str!("../../../include/rcuo/runtime.h");
const SYS: &str = include_str!("../../rcuo-sys/src/lib.rs");

fn defined(name: &str) -> &'static str {
    SLOTS.lines().find_map(|line| line.strip_prefix(&format!("#define {name} "))).unwrap()
}

#[test]
fn the_header_and_the_library_are_this_versions() {
    assert_eq!(defined("RCUO_VERSION"), format!("\"{}\"", env!("CARGO_PKG_VERSION")));
    assert_eq!(rcuo::version(), env!("CARGO_PKG_VERSION"));
    let [major, minor, patch] = ["MAJOR", "MINOR", "PATCH"].map(|part| defined(&format!("RCUO_VERSION_{part}")).parse::<u32>().unwrap());
    assert_eq!(rcuo_sys::RCUO_VERSION_NUMBER, major * 1_000_000 + minor * 1000 + patch);
}

#[test]
fn the_settings_by_default_are_the_headers() {
    let Settings { processors, stride, blimit, qhimark, limit, offloadable, records } = Settings::default();
    assert_eq!(offloadable, Some([].as_slice()));
    let records = u32::from(records);
    let defaults = format!("{{{processors}, {stride}, {blimit}, {qhimark}, {limit}, rcuo_none, rcuo_none, {records}}}");
    assert_eq!(defined("RCUO_SETTINGS_DEFAULT"), defaults);
}

#[test]
fn the_answers_have_their_numbers() {
    let mut answers = 0;
    for line in SLOTS.lines().filter_map(|line| line.strip_prefix("    RCUO_")) {
        let Some((name, number)) = line.split_once(" = ") else { continue };
        let number = number.split([',', ' ']).next().unwrap();
        if SYS.contains(&format!("pub const RCUO_{name}: rcuo_answer = {number};")) {
            answers += 1;
        }
    }
    assert_eq!(answers, 23);
}

/// The code of both headers, without comments.
fn code() -> String {
    let mut code = String::new();
    for header in [SLOTS, RUNTIME] {
        let mut pieces = header.split("/*");
        code.extend(pieces.next());
        code.extend(pieces.map(|piece| piece.split_once("*/").unwrap().1));
    }
    code
}

/// The words between this and that, wherever both stand.
fn between<'a>(code: &'a str, before: &str, behind: &str) -> Option<&'a str> {
    Some(code.split_once(before)?.1.split_once(behind)?.0)
}

/// Each function that is declared here is exported there, with as many parameters.
#[test]
fn the_functions_are_those_of_the_headers() {
    let code = code();
    for declared in SYS.split("    pub fn ").skip(1) {
        let (name, parameters) = declared.split(';').next().unwrap().split_once('(').unwrap();
        let words = between(&code, &format!("{name}("), ");\n").unwrap_or_else(|| panic!("{name} isn't exported"));
        let many = if words == "void" { 0 } else { words.matches(',').count() + 1 };
        assert_eq!(parameters.matches(": ").count(), many, "{name}");
    }
    assert!(SYS.matches("    pub fn ").count() > 40);
}

/// The name that a field of C declares.
fn field_of(declaration: &str) -> &str {
    let name = between(declaration, "(*", ")").unwrap_or_else(|| declaration.split('[').next().unwrap());
    name.rsplit([' ', '*']).next().unwrap()
}

/// Each struct whose fields are declared here has those of the headers, in their order.
#[test]
fn the_fields_are_those_of_the_headers() {
    let code = code();
    let mut structs = 0;
    for piece in SYS.split("#[repr(C)]").skip(1) {
        let name = between(piece, "pub struct ", " {").unwrap();
        let Some(fields) = between(&code, &format!("struct {name} {{"), "}") else { continue };
        let there = Vec::from_iter(fields.split(';').map(str::trim).filter(|it| !it.is_empty()).map(field_of));
        let declared = between(piece, &format!("struct {name} {{"), "\n}").unwrap();
        let declared = declared.lines().map(str::trim).filter(|line| line.ends_with(',') && !line.starts_with('/'));
        let here = Vec::from_iter(declared.map(|line| line.trim_start_matches("pub ").split(':').next().unwrap()));
        assert_eq!(here, there, "{name}");
        structs += 1;
    }
    assert_eq!(structs, 12);
}
