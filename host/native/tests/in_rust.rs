//! Each form of the source that rustc does not know, with what it is written as.

#[path = "../in_rust.rs"]
mod in_rust;

/// Blanks aside: those beside what is left out stay.
fn turned(text: &str) -> String {
    let rust = in_rust::in_rust(text, "own", &["terms".to_string()]);
    assert_eq!(rust.lines().count(), text.lines().count().max(1), "{text}");
    let rest = rust.strip_prefix("use crate::{terms}; ");
    solid(rest.expect("other crates come first"))
}

fn solid(text: &str) -> String {
    text.split_whitespace().collect()
}

fn held(forms: &[(&str, &str)]) {
    for (text, rust) in forms {
        assert_eq!(turned(text), solid(rust), "{text}");
    }
}

#[test]
fn clauses() {
    held(&[
        (
            "pub fn f(x: &[u8]) -> u8\n    requires { (k : ℕ) → k < 2 }\n    ensures low { result ≤ 3 }\n    ensures high {\n        λ x' y'. codes \"{\" ≡ x'\n    }\n{\n    x[0]\n}\n",
            "pub fn f(x: &[u8]) -> u8 { x[0] }",
        ),
        ("fn f(level: &mut u32) ghost top: { ℕ } requires* { ⌜ level.old ≤ top ⌝ } {}", "fn f(level: &mut u32) {}"),
        (
            "trait A { fn f(&self) -> u8 ensures { result ≡ g self.now }; }",
            "trait A { fn f(&self) -> u8; }",
        ),
        (
            "fn f<F: FnMut(u8) -> u8>(mut f: F) where F: Copy requires { F.IsAlwaysCallable f } { f(1); }",
            "fn f<F: FnMut(u8) -> u8>(mut f: F) where F: Copy { f(1); }",
        ),
        (
            "let mut up = move |x: u8| -> u8\n    requires { x < 2 }\n    ensures { n.exit ≡ result }\n{ x + n };",
            "let mut up = move |x: u8| -> u8 { x + n };",
        ),
    ]);
}

#[test]
fn ghosts() {
    held(&[
        (
            "ghost use Rattle.std.specs.Prelude.{◌≡◌, [], ◌∷◌};\nuse std::mem;",
            "use std::mem;",
        ),
        (
            "impl From<Class> for u16 { ghost from_gives = { λ class code. code ≡ class_code class }; fn from(class: Class) -> u16 { class as u16 } }",
            "impl From<Class> for u16 { fn from(class: Class) -> u16 { class as u16 } }",
        ),
        (
            "trait A { ghost size: { Self → ℕ }; ghost valid: { Self → Type 0 } = { λ _. Unit {0} }; ghost CAP: { ℕ }; const CAP: u32; }",
            "trait A { const CAP: u32; }",
        ),
        (
            "pub struct P {\n    pub value: u8,\n    /// At most 100.\n    pub ghost in_range: { value ≤ 100 },\n    ghost small: { IfSome value } by { Prim.hlevel props }\n}",
            "pub struct P { pub value: u8, // At most 100.\n }",
        ),
        (
            "use std::marker::Model;\nuse std::marker::{Model, PhantomData};\nimpl<T> Model for Stack<T> { ghost Value = { List ℕ }; ghost view = { λ s. s.items }; ghost invariant = { λ s. s.len ≤ 8 }; }\nfn f() {}",
            "use std::marker::{ PhantomData}; fn f() {}",
        ),
    ]);
}

#[test]
fn attributes() {
    held(&[
        ("#![tactic(auto)]\n\nmod a;", "mod a;"),
        (
            "#[tactic(auto, using(a::b), unfolding(c::d))]\n#[inline]\nfn f() {}",
            "#[inline] fn f() {}",
        ),
        ("#[cycle(parser)] fn f() {}", "fn f() {}"),
        (
            "#[derive(Debug, Drop)] struct A;",
            "#[derive(Debug, )] struct A;",
        ),
        (
            "#[derive(Drop, Debug)] struct A;",
            "#[derive( Debug)] struct A;",
        ),
        ("#[cfg(test)] mod tests {}", "#[cfg(any())] mod tests {}"),
    ]);
}

#[test]
fn words() {
    held(&[
        (
            "use crate::a::{b, c}; pub(crate) fn f() { crate::g() }",
            "use crate::own::a::{b, c}; pub(crate) fn f() { crate::own::g() }",
        ),
        (
            "prove!(a < b); prove_eq!(a, b); prove_ne!(a, b); const _: () = prove!(N > 0);",
            "debug_assert!(a < b); debug_assert_eq!(a, b); debug_assert_ne!(a, b); const _: () = debug_assert!(N > 0);",
        ),
        (
            "fn f<I: Iterator + Drop, T: Drop + Copy, U: Drop>(i: I) {} enum E { Drop, Pay } use E::Drop;",
            "fn f<I: Iterator , T: Copy, U: >(i: I) {} enum E { Drop, Pay } use E::Drop;",
        ),
        ("trait A { final fn f(&self) {} }", "trait A { fn f(&self) {} }"),
        (
            "fn f<'a>(x: &'a str) -> char { 'rows: loop { break 'rows; } // ghost use\n '\\'' }",
            "fn f<'a>(x: &'a str) -> char { 'rows: loop { break 'rows; } // ghost use\n '\\'' }",
        ),
        ("let s = \"ghost \\\" requires {\";", "let s = \"ghost \\\" requires {\";"),
    ]);
}

#[test]
fn let_with_else() {
    held(&[
        (
            "let Some(x) = y else { return 0; };",
            "let (x, ) = if let Some(x) = y { (x, ) } else { return 0; };",
        ),
        (
            "let Answer::Found { entry, length: Some(mut long), at: _ } =\n    read(bytes, |x| { x + 1 })\nelse {\n    return;\n};",
            "let (entry, mut long, ) = if let Answer::Found { entry, length: Some(mut long), at: _ } = read(bytes, |x| { x + 1 }) { (entry, long, ) } else { return; };",
        ),
        (
            "let Ok(()) = done() else { return };",
            "let () = if let Ok(()) = done() { () } else { return };",
        ),
        (
            "let [b'x', rest @ ..] = bytes else { return };",
            "let (rest, ) = if let [b'x', rest @ ..] = bytes { (rest, ) } else { return };",
        ),
        (
            "let x: u8; let y = if a { b } else { c }; if let Some(z) = y { d } else { e }",
            "let x: u8; let y = if a { b } else { c }; if let Some(z) = y { d } else { e }",
        ),
        (
            "if a && let Some(x) = y { b } let c = d;",
            "if a && let Some(x) = y { b } let c = d;",
        ),
    ]);
}
