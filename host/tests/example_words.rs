//! What the example in C says of a closed IOPB, for every kind of status that tells how much would have
//! fitted or does not. Its own disk is too small for some of them.

use std::path::{Path, PathBuf};
use std::process::Command;

/// The code, SGM and byte 3 of a closed IOPB, and the words for it.
const STATUSES: [(u8, u8, u8, &str); 13] = [
    (0x10, 0, 0, "the cylinder is above its maximum"),
    (0x10, 0, 1, "past the end of the drive; 1 sector would have fitted"),
    (0x10, 0, 2, "past the end of the drive; 2 sectors would have fitted"),
    (0x10, 0, 254, "past the end of the drive; 254 sectors would have fitted"),
    (0x10, 0, 255, "past the end of the drive; 255 sectors or more would have fitted"),
    (0x10, 1, 0, "the cylinder is above its maximum"),
    (0x10, 1, 3, "past the end of the drive; 3 sectors would have fitted"),
    (0x4B, 0, 0, "past the end of memory; not one whole sector would have fitted"),
    (0x4B, 0, 1, "past the end of memory; 1 sector would have fitted"),
    (0x4B, 0, 127, "past the end of memory; 127 sectors would have fitted"),
    (0x4B, 1, 0, "the link list, or a range of it, goes past the end of memory"),
    (0x13, 0, 0, "the count of sectors is zero"),
    (0x00, 0, 0, "it went well"),
];

fn repository() -> PathBuf {
    Path::new(env!("CARGO_MANIFEST_DIR")).join("..")
}

/// A program in C that says the words of each status on a line.
fn program() -> String {
    let mut text = String::from(
        "#include \"words.h\"\n#include <stdio.h>\n\
         static void say(uint8_t completion, uint8_t sgm, uint8_t internal)\n{\n    \
         rosadenca_iopb iopb = {.completion = completion, .sgm = sgm, .internal = internal};\n    \
         printf(\"%s\", code_in_words(&iopb));\n    print_fitted(&iopb);\n    putchar('\\n');\n}\n\
         int main(void)\n{\n",
    );
    for (code, sgm, byte3, _) in STATUSES {
        text += &format!("    say({code}, {sgm}, {byte3});\n");
    }
    text + "    return 0;\n}\n"
}

#[test]
fn every_status_has_its_words() {
    let folder = Path::new(env!("CARGO_TARGET_TMPDIR"));
    let (source, made) = (folder.join("say_words.c"), folder.join("say_words"));
    std::fs::write(&source, program()).expect("the program in C can be written");
    let compiled = Command::new("cc")
        .args(["-std=c11", "-Wall", "-Wextra", "-Wpedantic", "-Werror"])
        .arg("-I")
        .arg(repository().join("include"))
        .arg("-I")
        .arg(repository().join("examples"))
        .arg(&source)
        .arg(repository().join("examples/words.c"))
        .arg("-o")
        .arg(&made)
        .output()
        .expect("'cc', the C compiler, can be run");
    assert!(compiled.status.success(), "{}", String::from_utf8_lossy(&compiled.stderr));
    let said = Command::new(&made).output().expect("the program in C can be run");
    let said = String::from_utf8(said.stdout).expect("it says text");
    let words: Vec<&str> = STATUSES.iter().map(|(_, _, _, words)| *words).collect();
    assert_eq!(said.lines().collect::<Vec<_>>(), words);
}
