//! Holds what C and Rust declare to the firmware's source: every exported function with its
//! parameters, every struct with its fields; and has a C compiler say that C lays the structs out
//! as Rust does.

mod reading;

use host::declared::{
    Drive, Iopb, LentDrives, Link, Part, Place, Placed, Ran, Record, Walked, UNITS,
};
use reading::{c_header, differences, rattle, rust, Declared};
use std::mem::{align_of, offset_of, size_of};
use std::path::{Path, PathBuf};
use std::process::Command;

fn repository() -> PathBuf {
    Path::new(env!("CARGO_MANIFEST_DIR")).join("..")
}

fn file(path: &str) -> String {
    let path = repository().join(path);
    std::fs::read_to_string(&path).unwrap_or_else(|error| panic!("{}: {error}", path.display()))
}

/// The firmware's source files, and the crate whose types they speak of.
fn source() -> Declared {
    let folder = repository().join("crates/firmware/src");
    let entries =
        std::fs::read_dir(&folder).unwrap_or_else(|error| panic!("{}: {error}", folder.display()));
    let paths = entries.map(|entry| entry.expect("the folder can be read").path());
    let rattle_files = paths.filter(|path| path.extension().is_some_and(|end| end == "rt"));
    let mut files: Vec<String> =
        rattle_files.map(|path| std::fs::read_to_string(path).expect("a source file")).collect();
    files.push(file("crates/meaning/src/lib.rt"));
    rattle::declared(&files)
}

fn hold(name: &str, declared: &Declared) {
    let source = source();
    assert!(source.functions.len() == 9 && source.structs.len() == 10, "the source was not read");
    let found = differences(("the source", &source), (name, declared));
    assert!(found.is_empty(), "{name} is not what the source exports:\n{}", found.join("\n"));
}

#[test]
fn the_header_declares_what_the_source_exports() {
    hold("the C header", &c_header::declared(&file("include/rosadenca.h")));
}

#[test]
fn the_wrapper_declares_what_the_source_exports() {
    hold("the Rust wrapper", &rust::declared(&file("host/src/declared.rs")));
}

/// Mistakes in the header, one of each kind: what stands there, and what is put in its place.
const MISTAKES: &[(&str, &str)] = &[
    ("uint16_t count;", "uint32_t count;"),
    ("uint32_t address;", "uint32_t data;"),
    ("    uint8_t byte0;", ""),
    ("    uint16_t ranges;", "    uint32_t ranges;"),
    ("    uint8_t fitted;", ""),
    ("    uint8_t unit;     ", "    uint16_t unit;     "),
    ("    bool present;", ""),
    ("rosadenca_drive units[ROSADENCA_UNITS];", "rosadenca_drive units[ROSADENCA_MOST_LINKS];"),
    ("rosadenca_drive units[ROSADENCA_UNITS];", "rosadenca_part units[ROSADENCA_UNITS];"),
    ("ROSADENCA_UNITS = 4", "ROSADENCA_UNITS = 3"),
    ("rosadenca_drives drives, uint8_t unit,", "rosadenca_drives drives, uint32_t unit,"),
    ("rosadenca_drives drives, uint8_t unit,", "rosadenca_drive drives, uint8_t unit,"),
    ("rosadenca_drives drives, uint32_t start,", "uint32_t start, rosadenca_drives drives,"),
    ("const uint8_t *image3, size_t image3_length, rosadenca", "rosadenca"),
    ("    uint16_t length;", "    uint32_t length;"),
    ("rosadenca_link list[ROSADENCA_MOST_LINKS];", "rosadenca_link list[ROSADENCA_IOPB_BYTES];"),
    ("rosadenca_link list[ROSADENCA_MOST_LINKS];", "rosadenca_part list[ROSADENCA_MOST_LINKS];"),
    ("ROSADENCA_MOST_LINKS = 32", "ROSADENCA_MOST_LINKS = 31"),
    ("uint64_t budget", "uint32_t budget"),
    ("size_t commands, size_t place", "size_t place, size_t commands"),
    ("const uint8_t *picks", "uint8_t *picks"),
    ("rosadenca_iopb rosadenca_view(", "rosadenca_iopb rosadenca_views("),
    ("uint64_t rosadenca_chain_steps(", "uint32_t rosadenca_chain_steps("),
    ("uint8_t unit;          ", "uint8_t units;          "),
    ("    uint8_t last_sector;", ""),
    ("rosadenca_disk_place place;", "rosadenca_part place;"),
    (
        "rosadenca_place(rosadenca_drive drive, uint32_t",
        "rosadenca_place(rosadenca_drive drive, uint64_t",
    ),
];

/// Every name that is followed by a mistake of one kind must be told apart.
#[test]
fn a_changed_declaration_is_found() {
    let header = file("include/rosadenca.h");
    let right = c_header::declared(&header);
    for (old, new) in MISTAKES {
        assert!(header.contains(old), "the header has no {old:?} to change");
        let changed = c_header::declared(&header.replacen(old, new, 1));
        let found = differences(("the header", &right), ("the changed one", &changed));
        assert!(!found.is_empty(), "{old:?} changed to {new:?} was not found");
    }
}

/// A line for C: what it must agree to of one struct or one field of it.
fn assertion(of: &str, is: usize) -> String {
    format!("_Static_assert({of} == {is}, \"{of} is {is}\");\n")
}

macro_rules! layout {
    ($text:ident, $rust:ty, $c:literal, $(($field:ident, $in_c:literal)),+) => {
        $text += &assertion(concat!("sizeof(", $c, ")"), size_of::<$rust>());
        $text += &assertion(concat!("_Alignof(", $c, ")"), align_of::<$rust>());
        $($text += &assertion(concat!("offsetof(", $c, ", ", $in_c, ")"), offset_of!($rust, $field));)+
    };
}

/// One line for each size and each offset that Rust has.
fn assertions() -> String {
    let mut text = String::from("#include \"rosadenca.h\"\n");
    layout!(
        text,
        Drive,
        "rosadenca_drive",
        (cylinder, "cylinder"),
        (head, "head"),
        (sector, "sector"),
        (last_sector, "last_sector"),
        (protected, "write_protected"),
        (present, "present")
    );
    layout!(text, LentDrives, "rosadenca_drives", (units, "units"));
    layout!(
        text,
        Place,
        "rosadenca_disk_place",
        (cylinder, "cylinder"),
        (head, "head"),
        (sector, "sector")
    );
    layout!(text, Placed, "rosadenca_placed", (place, "place"), (number, "number"));
    layout!(
        text,
        Link,
        "rosadenca_link",
        (address, "address"),
        (length, "length"),
        (unused, "unused")
    );
    layout!(
        text,
        Record,
        "rosadenca_record",
        (iopb, "iopb"),
        (address, "address"),
        (sector, "sector"),
        (taken, "taken"),
        (ranges, "ranges"),
        (count, "count"),
        (byte0, "byte0"),
        (code, "code"),
        (fitted, "fitted"),
        (unit, "unit"),
        (list, "list")
    );
    layout!(text, Walked, "rosadenca_walked", (number, "number"), (commands, "commands"));
    layout!(
        text,
        Ran,
        "rosadenca_ran",
        (steps, "steps"),
        (refused, "refused"),
        (number, "number"),
        (finished, "finished")
    );
    layout!(
        text,
        Iopb,
        "rosadenca_iopb",
        (data_address, "data_address"),
        (next_address, "next_address"),
        (count, "count"),
        (cylinder, "cylinder"),
        (number, "number"),
        (errs, "errs"),
        (done, "done"),
        (chen, "chen"),
        (sgm, "sgm"),
        (command, "command"),
        (completion, "completion"),
        (wrpt, "wrpt"),
        (oncl, "oncl"),
        (drdy, "drdy"),
        (internal, "internal"),
        (subfunction, "subfunction"),
        (unit, "unit"),
        (head, "head"),
        (sector, "sector")
    );
    layout!(text, Part, "rosadenca_part", (at, "at"), (length, "length"));
    text
}

/// Whether the C compiler takes this text, and what it says.
fn compiles(name: &str, text: &str) -> Result<(), String> {
    compiles_by("cc", "-std=c11", name, text).expect("'cc', the C compiler, can be run")
}

/// Whether a compiler takes this text; none where there is no such compiler.
fn compiles_by(
    compiler: &str,
    language: &str,
    name: &str,
    text: &str,
) -> Option<Result<(), String>> {
    let path = Path::new(env!("CARGO_TARGET_TMPDIR")).join(name);
    std::fs::write(&path, text).expect("the file for C can be written");
    let ran = Command::new(compiler)
        .args([language, "-Wall", "-Wextra", "-Wpedantic", "-Werror", "-fsyntax-only", "-I"])
        .arg(repository().join("include"))
        .arg(&path)
        .output()
        .ok()?;
    if ran.status.success() {
        return Some(Ok(()));
    }
    Some(Err(String::from_utf8_lossy(&ran.stderr).into_owned()))
}

/// The limits that the header names are those that the second program has.
#[test]
fn the_headers_limits_are_the_second_programs() {
    let limits = [
        ("ROSADENCA_MEMORY_LIMIT", second::board::MEMORY_LIMIT),
        ("ROSADENCA_IMAGE_LIMIT", second::board::IMAGE_LIMIT),
        ("ROSADENCA_SECTOR_BYTES", second::board::SECTOR_BYTES),
        ("ROSADENCA_UNITS", second::board::UNITS),
        ("ROSADENCA_MOST_COMMANDS", second::record::MOST_COMMANDS),
        ("ROSADENCA_IOPB_BYTES", second::iopb::IOPB_BYTES),
        ("ROSADENCA_MOST_LINKS", second::link_list::MOST_ELEMENTS),
        ("ROSADENCA_LINK_BYTES", second::link_list::ELEMENT_BYTES),
    ];
    let lines = limits.map(|(name, limit)| assertion(name, limit as usize)).concat();
    if let Err(said) = compiles("limits.c", &format!("#include \"rosadenca.h\"\n{lines}")) {
        panic!("{said}");
    }
}

/// A host with one drive in C++, which has no designated initialisers and no compound literals.
#[test]
fn the_short_forms_are_cpp_too() {
    let text = "#include \"rosadenca.h\"\n\
        rosadenca_ran all(uint8_t *memory, uint8_t *image, rosadenca_record *table) {\n\
        rosadenca_drive drive = {1, 1, 7, 7, false, true};\n\
        rosadenca_lent lent = rosadenca_one_drive(memory, 4096, image, 16384, drive);\n\
        rosadenca_add_drive(&lent, 3, image + 16384, 16384, drive);\n\
        rosadenca_walked walked = rosadenca_walk_lent(&lent, 0, table, ROSADENCA_MOST_COMMANDS);\n\
        return rosadenca_run_written_lent(&lent, table, 32, walked.commands, 1);\n}\n";
    compiles("one_drive.c", text).unwrap_or_else(|said| panic!("{said}"));
    match compiles_by("c++", "-std=c++11", "one_drive.cpp", text) {
        None => println!("there is no C++ compiler here, so the header was not tried in C++"),
        Some(tried) => tried.unwrap_or_else(|said| panic!("{said}")),
    }
}

#[test]
fn c_lays_the_structs_out_as_rust_does() {
    assert_eq!(LentDrives::default().units.len(), UNITS);
    let text = assertions();
    // every field of every struct has its line
    let fields: usize = source().structs.values().map(Vec::len).sum();
    assert_eq!(text.matches("(offsetof(").count(), fields, "a field has no line");
    // and the header has its own for a C programmer, whatever Rust says
    let header = file("include/rosadenca.h");
    assert_eq!(
        header.matches("\nROSADENCA_AT(").count(),
        fields,
        "the header tests not every field"
    );
    if let Err(said) = compiles("layout.c", &text) {
        panic!("{said}");
    }
    let wrong = text.replace("sizeof(rosadenca_record) == 280", "sizeof(rosadenca_record) == 284");
    assert_ne!(text, wrong, "a record has 280 bytes");
    assert!(compiles("wrong_layout.c", &wrong).is_err(), "the C compiler takes a wrong size");
}
