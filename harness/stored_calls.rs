//! Prints what the test program `check_calls` has to print, as the second opinion computes it: with its numbers of lists and
//! machines and its seed, or with others; or, after `--list`, what the calls of one list answer. Started by the script
//! `stored_calls`.
use opinion::check_calls::{self, LISTS, MACHINES, SEED};
use std::env;

fn main() {
    let mut words: Vec<String> = env::args().skip(1).collect();
    let is_list = words.first().is_some_and(|word| word == "--list");
    if is_list {
        words.remove(0);
    }
    let number = |at: usize, own: u32| match words.get(at) {
        None => own,
        Some(word) => word.parse().expect("a number"),
    };
    let mut out = String::new();
    let printed = match is_list {
        true => check_calls::print_list(&mut out, number(0, 0), number(1, SEED)),
        false => check_calls::print(
            &mut out,
            number(0, LISTS),
            number(1, MACHINES),
            number(2, SEED),
        ),
    };
    printed.expect("a string takes all that is written");
    print!("{out}");
}
