//! Times the proved library against the second reader in one run, and says which bounds are met.
//!
//! Both are asked by turns about the same files, and every reply, row and text is compared.

#![forbid(unsafe_code)]

mod arguments;
mod asking;
mod bounds;
mod cores;
mod counts;
mod files;
mod parts;
mod sections;
mod sheet;
mod special;
mod speeds;
mod stacks;
mod table;
mod timing;
mod windows;

use std::process;

use arguments::{Arguments, Command, HELP};
use files::{LARGEST, MIB};
use stacks::{peak_memory, Stacks};
use timing::{Clock, Differs};

const SPEED_NOTE: &str = "\
MiB are those that an operation goes through: of check and read the file, of write the text written, of same the file and its \
respaced copy, of judge the board or panel and its library, which has a quarter of its size. Ratio: the proved library's time over \
the second reader's. Growth: the proved library's time per byte over that at 1 MiB.";

fn main() {
    let code = match arguments::parse(std::env::args().skip(1)) {
        Ok(Command::Help) => {
            print!("{HELP}");
            0
        }
        Ok(Command::Run(arguments)) => ended(run(arguments).map_err(|differs| differs.to_string())),
        Ok(Command::Count { quick }) => ended(counts::run(quick)),
        Ok(Command::One(one)) => ended(counts::ask(&one)),
        Err(fault) => {
            eprintln!("bench: {fault}; see tools/bench --help");
            2
        }
    };
    // A run that was given up goes on in its thread and ends here, with the process.
    process::exit(code);
}

/// The exit code of what was done, once its fault is said.
fn ended(done: Result<(), String>) -> i32 {
    match done {
        Ok(()) => 0,
        Err(fault) => {
            eprintln!("bench: {fault}");
            1
        }
    }
}

/// Measures and prints, table by table.
fn run(Arguments { rounds, limit, quick }: Arguments) -> Result<(), Differs> {
    let mut clock = Clock { rounds, limit, given_up: 0 };
    let over = format!("> {} s", limit.as_secs());
    let sizes = if quick { vec![MIB] } else { vec![MIB, 4 * MIB, LARGEST] };

    println!(
        "## Speed\n\nBest of {} by time on a core, the two by turns. {}\n",
        2 * rounds,
        load()
    );
    let speeds = speeds::measured(&mut clock, &sizes)?;
    println!("{}\n{SPEED_NOTE}", speeds::table(&speeds, &over).text());

    let specials = if quick { Vec::new() } else { special::measured(&mut clock, &speeds)? };
    if !quick {
        println!("\n## Special cases\n\n{}", special::table(&specials, &over).text().trim_end());
    }
    print_stacks(&stacks::measured(&speeds, limit, &over));
    println!("\n## Bounds\n\n{}", bounds::lines(&speeds, &specials, &over).join("\n"));
    println!(
        "\n{over}: not run, since smaller files say that it would take longer, or given up after that time and \
        left to go on beside later runs. Given up: {}.",
        clock.given_up
    );
    Ok(())
}

/// Prints the stacks, and the memory of the whole process.
fn print_stacks(stacks: &Stacks) {
    let kib = |kib: Option<u64>| kib.map_or("not told".to_string(), |kib| format!("{kib} KiB"));
    println!("\n## Stack and memory\n\n{}\n{}\n", stacks.table.text(), stacks::NOTE);
    println!("Stack of an idle thread: {}.", kib(stacks.idle));
    println!(
        "Peak memory of the whole process, with all files and all that is lent: {}.",
        kib(peak_memory())
    );
}

/// How busy the machine is: on one that is not idle, caches are shared and growth says little.
fn load() -> String {
    let told = std::fs::read_to_string("/proc/loadavg").unwrap_or_default();
    let load = told.split(' ').next().filter(|load| !load.is_empty()).unwrap_or("not told");
    let cores = std::thread::available_parallelism().map_or(1, usize::from);
    format!("Load of the machine before: {load}, cores: {cores}.")
}
