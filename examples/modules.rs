mod a { pub const N: i64 = 2; pub fn f(x: i64) -> i64 { x * N } }
mod b { #[inline] pub fn g(x: i64) -> i64 { x + 1 } pub fn h() -> i64 { crate::a::f(g(3)) } }
fn main() { println!("{}", b::h()); }
