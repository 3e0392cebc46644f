//! `percent`: what the program of that name is to print, by the reference.

use reference::percentage::{differences, legal_size};

fn word(answer: bool) -> &'static str {
    if answer {
        "yes"
    } else {
        "no"
    }
}

fn main() {
    let all = differences();
    println!("lines dirty P float ours");
    for one in &all {
        let (float, ours) = (word(one.float), word(one.ours));
        println!("{} {} {} {float} {ours}", one.lines, one.dirty, one.percent);
    }
    let legal = all.iter().filter(|one| legal_size(one.lines)).count();
    println!("{} differences, {legal} at the size of a legal cache", all.len());
}
