//! Prints the covers of a problem, or its first fault.
use helgrothy::{Kind, list};

fn solve(text: &[u8]) {
    let mut listing = [0; 1000];
    match list(Kind::Plain, text, 1, 10, &mut listing) {
        Ok((used, end)) => println!("{}{end:?}", String::from_utf8_lossy(&listing[..used])),
        Err(error) => println!("{error}"),
    }
}

fn main() {
    solve(b"a b c d e f g\nc e\na d g\nb c f\na d f\nb g\nd e g\n");
    solve(b"a b\na c\n");
}
