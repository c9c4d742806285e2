//! The search for wide products, held to small modules in which each kind of product stands alone.

use host::declared::Record;
use host::products::written::other_than_by_sign;
use host::products::{handed_over, optimised, table};

/// A module with one function of this body; its parameters have no fixed types.
fn module(body: &str) -> String {
    format!(
        "; ModuleID = 'simulated'\n@none = constant [4 x i8] zeroinitializer\n\n\
         define internal void @\"a::mul\"(ptr %p, i64 %a, i64 %b) #0 {{\nstart:\n{body}  ret void\n}}\n\n\
         declare void @llvm.memcpy.p0.p0.i64(ptr, ptr, i64, i1)\n\n\
         attributes #0 = {{ nounwind \"mul\" }}\n!0 = !{{!\"mul\"}}\n"
    )
}

/// How many products are narrow, by a power of two and of an index, and the bits of those that may
/// not be.
type Seen = (usize, usize, usize, Vec<u32>);

/// What is seen of the products of a body.
fn seen(body: &str) -> Seen {
    let seen = optimised(&module(body)).expect("the module is understood");
    let wide = seen.wide.iter().map(|found| found.bits).collect();
    (seen.narrow, seen.shifts, seen.indices, wide)
}

/// The one product of an instruction `%r = ...`.
fn one(instruction: &str) -> Seen {
    seen(&format!("  %r = {instruction}\n"))
}

fn narrow() -> Seen {
    (1, 0, 0, vec![])
}

fn shift() -> Seen {
    (0, 1, 0, vec![])
}

fn wide(bits: u32) -> Seen {
    (0, 0, 0, vec![bits])
}

#[test]
fn more_than_32_bits_are_wide() {
    assert_eq!(one("mul i32 %a, %b"), narrow());
    assert_eq!(one("mul nuw nsw i8 %a, 7"), narrow());
    assert_eq!(one("mul nuw i33 %a, %b"), wide(33));
    assert_eq!(one("mul nuw nsw i48 %a, %b"), wide(48));
    assert_eq!(one("mul i64 %a, %b, !note !0"), wide(64));
    assert_eq!(one("mul nsw i128 %\"a b\", %b"), wide(128));
    assert_eq!(one("mul <4 x i32> %a, %b"), narrow());
    assert_eq!(one("mul <2 x i64> %a, %b"), wide(64));
    assert_eq!(one("mul <vscale x 2 x i64> %a, %b"), wide(64));
}

#[test]
fn a_power_of_two_is_a_shift() {
    assert_eq!(one("mul nuw i64 %a, 512"), shift());
    assert_eq!(one("mul nuw i64 512, %a"), shift());
    assert_eq!(one("mul i64 %a, -9223372036854775808"), shift());
    assert_eq!(one("mul i64 %a, 513"), wide(64));
    assert_eq!(one("mul i64 %a, -512"), wide(64));
    assert_eq!(one("mul i64 %a, 0"), wide(64));
    assert_eq!(one("mul i48 %a, 3"), wide(48));
}

#[test]
fn a_vector_is_taken_lane_by_lane() {
    assert_eq!(one("mul <2 x i64> %a, splat (i64 8)"), shift());
    assert_eq!(one("mul <2 x i64> splat (i64 8), %a"), shift());
    assert_eq!(one("mul <2 x i64> %a, <i64 8, i64 16>"), shift());
    assert_eq!(one("mul <2 x i64> %a, splat (i64 9)"), wide(64));
    assert_eq!(one("mul <2 x i64> %a, <i64 8, i64 9>"), wide(64));
    assert_eq!(one("mul <2 x i64> %a, <i64 8, i64 poison>"), wide(64));
    assert_eq!(one("mul <2 x i64> %a, zeroinitializer"), wide(64));
    assert_eq!(one("mul <2 x i32> %a, splat (i32 9)"), narrow());
}

#[test]
fn products_of_llvms_own_count_twice_as_wide() {
    let call = |name: &str, of: &str, by: &str| {
        one(&format!("tail call {{ {of}, i1 }} @llvm.{name}.{of}({of} noundef %a, {of} {by})"))
    };
    assert_eq!(call("umul.with.overflow", "i64", "%b"), wide(128));
    assert_eq!(call("smul.with.overflow", "i64", "280"), wide(128));
    assert_eq!(call("umul.with.overflow", "i64", "512"), shift());
    // whether a product of 32 bits fits into 32 is seen in 64
    assert_eq!(call("umul.with.overflow", "i32", "%b"), wide(64));
    assert_eq!(call("umul.with.overflow", "i16", "%b"), narrow());
    let fixed = "call i64 @llvm.umul.fix.sat.i64(i64 %a, i64 %b, i32 4)";
    assert_eq!(one(fixed), wide(128));
}

/// What is seen of an index times the size of a record, with these instructions after it.
fn index(after: &str) -> Seen {
    seen(&format!("  %r = mul nuw nsw i64 %a, {}\n{after}", size_of::<Record>()))
}

const TO_ADDRESS: &str = "  %at = getelementptr inbounds nuw i8, ptr %p, i64 %r\n";

#[test]
fn an_index_is_for_addresses_and_lengths() {
    let fine = (0, 0, 1, vec![]);
    assert_eq!(index(TO_ADDRESS), fine);
    let copy =
        "  br label %on\n\non: ; preds = %start\n  %n = phi i64 [ %r, %start ], [ 8960, %on ]\n  \
                call void @llvm.memcpy.p0.p0.i64(ptr align 4 %p, ptr %p, i64 %n, i1 false)\n";
    assert_eq!(index(copy), fine);
    assert_eq!(index(&copy.replace("memcpy", "memmove")), fine);
    let fill = "  call void @llvm.memset.p0.i64(ptr %p, i8 0, i64 %r, i1 false)\n";
    assert_eq!(index(fill), fine);
    let sum =
        "  %s = add nuw i64 %r, 20\n  %t = sub i64 %s, %b\n  %u = select i1 %c, i64 %t, i64 %b\n  \
               %v = freeze i64 %u\n  %at = getelementptr i8, ptr %p, i64 %v\n";
    assert_eq!(index(sum), fine);
    // a name that only begins alike is another one
    assert_eq!(index(&format!("{TO_ADDRESS}  %c = icmp ult i64 %r1, %b\n")), fine);
}

#[test]
fn an_index_for_anything_else_is_wide() {
    let compared = "  %c = icmp ult i64 %r, %b\n";
    for other in [
        compared,
        "  store i64 %r, ptr %p, align 8\n",
        "  %t = trunc i64 %r to i32\n",
        "  %t = shl i64 %r, 1\n",
        "  %t = mul i32 %r, 3\n",
        "  call void @\"a::mul\"(ptr %p, i64 %b, i64 %r)\n",
        "  %q = inttoptr i64 %r to ptr\n",
        "  %at = getelementptr [8 x i8], ptr %p, i64 %r\n",
        "  %at = getelementptr i8, ptr %p, i64 %r, i64 %r\n",
        "  call void @llvm.memset.p0.i64(ptr %p, i8 %r, i64 %b, i1 false)\n",
        "  %s = add i64 %r, 8\n  %c = icmp ult i64 %s, %b\n",
    ] {
        assert_eq!(index(other).3, [64], "alone:{other}");
        assert_eq!(index(&format!("{TO_ADDRESS}{other}")).3, [64], "beside an address:{other}");
    }
    assert_eq!(index("").3, [64]);
    // by another size
    assert_eq!(seen(&format!("  %r = mul i64 %a, 279\n{TO_ADDRESS}")), wide(64));
    assert_eq!(seen(&format!("  %r = mul i64 %a, %b\n{TO_ADDRESS}")), wide(64));
}

#[test]
fn every_product_that_is_handed_over_counts() {
    let all = |body: &str| handed_over(&module(body)).expect("the module is understood");
    assert_eq!(all("  %r = mul nuw i64 %a, %b\n  %s = mul i32 %a, %b\n"), 2);
    let told = "call { i32, i1 } @llvm.umul.with.overflow.i32(i32 %a, i32 %b)";
    assert_eq!(all(&format!("  %r = {told}\n")), 1);
    assert_eq!(all("  %r = add i64 %a, %b\n"), 0);
}

/// Only a product that is written `*` is proved to fit its type.
#[test]
fn a_product_is_written_by_its_sign() {
    let words = |text: &str| {
        let found = other_than_by_sign(text).into_iter();
        found.map(|one| (one.line, one.word)).collect::<Vec<_>>()
    };
    let right = "// the product of both\nfn both(a: u32, b: u32) -> u32\n    \
                 ensures { result ≡ a * b }\n{\n    let mut c = a * b; // no wrapping_mul\n    c *= 1;\n    c\n}\n";
    assert_eq!(words(right), []);
    for other in [
        "wrapping_mul",
        "overflowing_mul",
        "saturating_mul",
        "unchecked_mul",
        "widening_mul",
        "mul",
        "wrapping_pow",
        "product",
    ] {
        let text = right.replace("a * b;", &format!("a.{other}(b);"));
        assert_eq!(words(&text), [(5, other.to_string())]);
    }
    let wrapping = right.replace("a * b;", "(Wrapping(a) * Wrapping(b)).0;");
    assert_eq!(words(&wrapping).len(), 2);
}

#[test]
fn what_is_not_understood_is_an_error() {
    let bad = |module: &str| {
        assert!(optimised(module).is_err(), "optimised: {module}");
        assert!(handed_over(module).is_err(), "handed over: {module}");
    };
    for line in [
        "%r = mul i64 %a",
        "%r = mul i64 %a, ?",
        "%r = mul double %a, %b",
        "%r = fmul double %a, %b",
        "mul i64 %a, %b",
        "%r = mul i64 %a, mul (i64 3, i64 5)",
        "%r = mul <2 x i32> %a, <i32 1, i32 mul (i32 3, i32 5)>",
        "%r = add i64 %a, mul (i64 ptrtoint (ptr @none to i64), i64 3)",
        "%r = call i64 @llvm.vector.reduce.mul.v2i64(<2 x i64> %a)",
        "%r = call i64 @__muldi3(i64 %a, i64 %b)",
        "%r = call i64 %p(i64 %a, ptr @\"a::mul\")",
        "call void %\"a::mul\"(ptr %p, i64 %a, i64 %b)",
        "%r = call i64 asm \"imul $0, $1\", \"=r,r\"(ptr @\"a::mul\")",
        "invoke void @\"a::mul\"(ptr %p, i64 %a, i64 %b) to label %start unwind label %start",
    ] {
        bad(&module(&format!("  {line}\n")));
    }
    let whole = module("");
    assert!(optimised(&whole).is_ok() && handed_over(&whole).is_ok());
    bad("");
    let broken_off = &whole[..whole.find("  ret").expect("it is there")];
    bad(broken_off);
    bad(&format!("{whole}{broken_off}"));
    bad(&whole.replace("[4 x i8] zeroinitializer", "i64 mul (i64 3, i64 5)"));
    bad(&format!("module asm \"imul\"\n{whole}"));
}

#[test]
fn a_name_is_no_product() {
    let named = "  %mul = add i64 %a, %b\n  br label %mul.exit\n\nmul.exit: ; preds = %start\n  \
                 call void @\"a::mul\"(ptr %p, i64 %mul, i64 %b), !note !0\n";
    assert_eq!(seen(named), (0, 0, 0, vec![]));
}

#[test]
fn the_table_tells_all_kinds() {
    let body = format!(
        "  %n = mul nuw i32 %a, %b\n  %x = mul nuw i64 %a, %b\n  %r = mul nuw i64 %a, {}\n{TO_ADDRESS}",
        size_of::<Record>()
    );
    let module = module(&body);
    let (first, second) = (optimised(&module).expect("read"), handed_over(&module).expect("read"));
    let alone = table(&first, None);
    assert!(alone.contains("| optimised: of at most 32 bits | 1 |\n"), "{alone}");
    assert!(alone.contains("(none may be) | 1 |\n") && !alone.contains("handed over"), "{alone}");
    let both = table(&first, Some(second));
    assert!(both.starts_with(&alone) && both.contains("| handed over: all | 3 |\n"), "{both}");
    let found = &first.wide[0];
    assert_eq!((found.function.as_str(), found.bits), ("a::mul", 64));
    assert_eq!(found.instruction, "%x = mul nuw i64 %a, %b");
}
