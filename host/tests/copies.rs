//! The count of copies, held to small modules in which each kind of copy stands alone.

use host::copies::{count, Sizes};

const SIZES: Sizes = Sizes { record: 20, table: 640 };

/// What is counted on a pick with this body, in a module with these further functions; none if
/// there is no end to it. `%a0` and `%a1` are lent.
fn picked(body: &str, more: &str) -> Option<usize> {
    let mut module = String::new();
    for name in ["rosadenca_walk", "rosadenca_run_picks", "rosadenca_run_written"] {
        module +=
            &format!("define void @{name}(ptr noundef %a0) #0 {{\nstart:\n  ret void\n}}\n\n");
    }
    module += "define noundef i8 @rosadenca_pick(ptr noundef %a0, ptr %a1, i64 %a2) #0 {\nstart:\n";
    module += "  %t = alloca [640 x i8], align 4\n  %u = alloca [643 x i8], align 4\n";
    module += &format!("  %small = alloca [128 x i8], align 4\n{body}}}\n\n{more}");
    let counted = count(&module, SIZES).expect("the module is understood");
    let pick = counted.iter().find(|path| path.name == "rosadenca_pick").expect("it is there");
    pick.copies.as_ref().map(Vec::len)
}

fn copy(to: &str, from: &str, bytes: &str) -> String {
    format!("  call void @llvm.memcpy.p0.p0.i64(ptr noundef nonnull align 4 dereferenceable(9) {to}, ptr align 1 {from}, i64 {bytes}, i1 false)\n")
}

#[test]
fn copies_of_a_tables_size_are_counted() {
    let all = copy("%t", "%a0", "640") + &copy("%u", "%t", "643") + &copy("%a0", "%u", "640");
    assert_eq!(picked(&format!("{all}  ret i8 0\n"), ""), Some(3));
    assert_eq!(picked(&format!("{}  ret i8 0\n", copy("%t", "%a0", "639")), ""), Some(0));
    let by_name = "  %r = tail call ptr @memcpy(ptr %t, ptr %a0, i64 700)\n  ret i8 0\n";
    assert_eq!(picked(by_name, ""), Some(1));
    let moved = copy("%t", "%a0", "640").replace("memcpy", "memmove");
    assert_eq!(picked(&format!("{moved}  ret i8 0\n"), ""), Some(1));
}

#[test]
fn the_way_with_most_copies_counts() {
    let body = format!(
        "  br i1 %c, label %one, label %\"the::other.exit\"\n\none: ; preds = %start\n{}  br label %end\n\n\
         \"the::other.exit\": ; preds = %start\n{}{}  switch i8 %x, label %end [\n    i8 0, label %last\n  ]\n\n\
         last:\n{}  br label %end\n\nend:\n{}  ret i8 0\n",
        copy("%t", "%a0", "640"),
        copy("%t", "%a0", "640"),
        copy("%u", "%t", "640"),
        copy("%t", "%u", "640"),
        copy("%a0", "%t", "640"),
    );
    assert_eq!(picked(&body, ""), Some(4));
}

#[test]
fn what_is_called_counts() {
    let body = "  %r = call fastcc i1 @\"board::pick::spoiled\"(ptr %t)\n\
                  %s = call fastcc i1 @\"board::pick::spoiled\"(ptr %t)\n  ret i8 0\n";
    let called = format!(
        "define internal fastcc i1 @\"board::pick::spoiled\"(ptr noundef %a0) #0 {{\nstart:\n  \
         %own = alloca [640 x i8], align 4\n{}  ret i1 false\n}}\n",
        copy("%own", "%a0", "640")
    );
    assert_eq!(picked(body, &called), Some(2));
}

#[test]
fn a_copy_in_a_loop_has_no_end() {
    let body = format!(
        "  br label %round\n\nround:\n{}  br i1 %c, label %round, label %end\n\nend:\n  ret i8 0\n",
        copy("%t", "%a0", "640")
    );
    assert_eq!(picked(&body, ""), None);
}

/// A loop over one block of these instructions, between labels of a number of its own.
fn round(number: usize, inside: &str) -> String {
    format!(
        "  br label %round{number}\n\nround{number}:\n  %k{number} = phi i64 [ 0, %start ], [ %n{number}, %round{number} ]\n  \
         %at{number} = getelementptr inbounds [20 x i8], ptr %t, i64 %k{number}\n  \
         %lent{number} = getelementptr inbounds [20 x i8], ptr %a0, i64 %k{number}\n  \
         %other{number} = getelementptr inbounds i8, ptr %a1, i64 %k{number}\n{inside}  \
         br i1 %c, label %round{number}, label %after{number}\n\nafter{number}:\n"
    )
}

#[test]
fn a_table_copied_record_by_record_is_counted() {
    let whole = round(1, &copy("%at1", "%lent1", "20"));
    assert_eq!(picked(&format!("{whole}  ret i8 0\n"), ""), Some(1));
    let fields =
        "  %v = load <4 x i32>, ptr %lent1, align 4\n  %w = load i32, ptr %lent1, align 4\n  \
                  store <4 x i32> %v, ptr %at1, align 4\n  store i32 %w, ptr %at1, align 4\n";
    assert_eq!(picked(&format!("{}  ret i8 0\n", round(1, fields)), ""), Some(1));
    // one field of each record, as the steps taken are laid back, is no table
    let field = "  %w = load i32, ptr %lent1, align 4\n  store i32 %w, ptr %at1, align 4\n";
    assert_eq!(picked(&format!("{}  ret i8 0\n", round(1, field)), ""), Some(0));
    // nor are whole records that are only looked at, one at a time
    let small = round(1, &copy("%small", "%lent1", "20"));
    assert_eq!(picked(&format!("{small}  ret i8 0\n"), ""), Some(0));
}

#[test]
fn sectors_are_no_tables() {
    let vectors = "  %v = load <16 x i8>, ptr %other1, align 1\n  %w = load <16 x i8>, ptr %other1, align 1\n  \
                   store <16 x i8> %v, ptr %lent1, align 1\n  store <16 x i8> %w, ptr %lent1, align 1\n";
    assert_eq!(picked(&format!("{}  ret i8 0\n", round(1, vectors)), ""), Some(0));
    let at_once = round(1, &copy("%lent1", "%other1", "%a2"));
    assert_eq!(picked(&format!("{at_once}  ret i8 0\n"), ""), Some(0));
    // of any length, but with a local of a table's size on one side
    let laid = copy("%a0", "%t", "%a2");
    assert_eq!(picked(&format!("{laid}  ret i8 0\n"), ""), Some(1));
}

/// A function that is handed places goes by what they are where it is called.
#[test]
fn what_is_handed_over_is_what_the_callers_hand_over() {
    let moves = |name: &str, inside: &str| {
        format!("define internal void @\"{name}\"(ptr %x, ptr %y, i64 %k) #0 {{\nstart:\n{inside}  ret void\n}}\n\n")
    };
    let at_once = moves("board::step::move", &copy("%x", "%y", "%k"));
    let through = moves(
        "board::step::through",
        "  %on = getelementptr i8, ptr %x, i64 %k\n  \
         call void @\"board::step::move\"(ptr %on, ptr nonnull %y, i64 %k)\n",
    );
    let call = |name: &str, to: &str, from: &str| {
        let body = format!(
            "  call void @\"board::step::{name}\"(ptr {to}, ptr {from}, i64 %a2)\n  ret i8 0\n"
        );
        let more = if name == "move" { at_once.clone() } else { format!("{at_once}{through}") };
        picked(&body, &more)
    };
    // from lent to lent, as a sector goes
    assert_eq!(call("move", "%a0", "%a1"), Some(0));
    assert_eq!(call("through", "%a0", "%a1"), Some(0));
    // a local of a table's size, but not a smaller one
    assert_eq!(call("move", "%t", "%a1"), Some(1));
    assert_eq!(call("through", "%a0", "%t"), Some(1));
    assert_eq!(call("through", "%small", "%a1"), Some(0));
    // by one of two callers is enough
    let both = "  call void @\"board::step::move\"(ptr %a0, ptr %a1, i64 %a2)\n  \
                call void @\"board::step::move\"(ptr %t, ptr %a1, i64 %a2)\n  ret i8 0\n";
    assert_eq!(picked(both, &at_once), Some(2));
}

#[test]
fn what_cannot_be_followed_is_an_error() {
    let module = |body: &str| {
        let mut module = String::new();
        for name in ["walk", "pick", "run_picks", "run_written"] {
            module += &format!(
                "define void @rosadenca_{name}(ptr %a0) {{\nstart:\n{body}  ret void\n}}\n"
            );
        }
        module
    };
    assert!(count(&module(""), SIZES).is_ok());
    assert!(count(&module("  call void @elsewhere(ptr %a0)\n"), SIZES).is_err());
    assert!(count(&module("  call void %f(ptr %a0)\n"), SIZES).is_err());
    assert!(count(&module("").replace("rosadenca_pick", "pick"), SIZES).is_err());
}
