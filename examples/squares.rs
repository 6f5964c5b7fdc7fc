mod numbers {
    pub const LIMIT: i64 = 5;
    pub fn square(x: i64) -> i64 { x * x }
}
mod checks {
    pub fn is_small(x: i64) -> bool { x < crate::numbers::LIMIT }
}
fn main() {
    let mut i = 1;
    while checks::is_small(i) {
        println!("{}", numbers::square(i));
        i = i + 1;
    }
}
