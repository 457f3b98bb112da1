// generate named | names | heavy | large
// generate SEED COUNT
// generate tables SEED COUNT
// generate names SEED COUNT
//
// Prints cases as `oracle batch` reads them: the named ones; those of many names
// and labels; those that use up the whole allowance, which take seconds each;
// those at the limit of blocks, 32 MiB each; or one case for each seed from SEED
// on: any, the same under a random kind table each, or of many names and labels.
// The same arguments give the same bytes.

mod case;
mod damage;
mod named;
mod names;
mod random;
#[path = "../splitmix.rs"]
mod splitmix;
mod write;

use case::Case;
use std::io::{self, BufWriter, Write};
use std::process::exit;

fn main() {
    let args: Vec<String> = std::env::args().skip(1).collect();
    let args: Vec<&str> = args.iter().map(String::as_str).collect();
    let mut out = BufWriter::new(io::stdout().lock());
    match args[..] {
        ["named"] => print(&mut out, named::all()),
        ["names"] => print(&mut out, named::names()),
        ["heavy"] => print(&mut out, named::heavy()),
        ["large"] => print(&mut out, named::large()),
        [seed, count] => seeds(&mut out, seed, count, random::case),
        ["tables", seed, count] => seeds(&mut out, seed, count, random::table_case),
        ["names", seed, count] => seeds(&mut out, seed, count, names::case),
        _ => usage(),
    }
    out.flush().expect("the cases can be written");
}

fn usage() -> ! {
    eprintln!("generate named|names|heavy|large, or generate [tables|names] SEED COUNT");
    exit(2);
}

fn seeds(out: &mut impl Write, seed: &str, count: &str, case: fn(u64) -> Case) {
    let (Ok(seed), Ok(count)) = (seed.parse::<u64>(), count.parse::<u64>()) else { usage() };
    for s in seed..seed + count {
        print(out, vec![case(s)]);
    }
}

fn print(out: &mut impl Write, cases: Vec<Case>) {
    for case in cases {
        case.write(out).expect("the cases can be written");
    }
}
