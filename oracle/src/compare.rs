//! The differential runs: random lists of calls on the port and on the given Rust, everything compared after every call.
//!
//!   compare [--calls N] [--seed S] [--long] [--first]
//!
//! N compared calls (200,000); lists are seeded from S (1); --long adds a list at 2^30 and slices over 2147483647; --first does not
//! look for a shorter list.
//! Prints what was compared, refused and left out, for each kind of call, and `0 differences`, or the first difference with the
//! shortest list of calls found that shows it, and then ends with 1. Read `world.rs` next, which takes one step.

mod arguments;
mod assemblies;
mod assembly;
mod calls;
mod domain;
mod lists;
mod original;
mod moved;
mod overflows;
mod wrapped;
mod port;
mod slices;
mod world;

use std::collections::{BTreeMap, HashMap};
use std::mem::{discriminant, Discriminant};

use calls::Call;
use lists::List;
use world::{Start, Told, World};

/// For each kind of call, how often each outcome was told.
#[derive(Default)]
struct Table {
    rows: HashMap<Discriminant<Call>, (String, BTreeMap<Told, u64>)>,
    compared: u64,
    /// The most terms that a list filled one after the other, none of them by hand.
    longest: i32,
}

impl Table {
    fn count(&mut self, call: &Call, told: Told) {
        let row = self.rows.entry(discriminant(call)).or_insert_with(|| (call.name(), BTreeMap::new()));
        *row.1.entry(told).or_insert(0) += 1;
        self.compared += matches!(told, Told::Compared(_)) as u64;
    }

    fn print(&self) {
        let mut rows: Vec<_> = self.rows.values().collect();
        rows.sort_by(|a, b| a.0.cmp(&b.0));
        println!("| Call | Compared | of these refused, by number | Stopped | Outside, by number | Left out |");
        println!("|---|---|---|---|---|---|");
        for (name, tolds) in &rows {
            println!("| {name} | {} |", cells(tolds).join(" | "));
        }
        let mut all = BTreeMap::new();
        rows.iter().flat_map(|row| &row.1).for_each(|(told, n)| *all.entry(*told).or_insert(0) += n);
        println!("| all | {} |", cells(&all).join(" | "));
        println!("\n{} calls compared", self.compared);
        let turned = all.get(&Told::ClosedAndLong).unwrap_or(&0);
        println!("{turned} claims over the payload limit on a closed publication: the port 5, the Rust 4 (R-3)");
        let wrapped = all.get(&Told::Wrapped).unwrap_or(&0);
        println!("{wrapped} calls whose term ids wrap, the same as the Rust's with every id moved (R-8)");
        let alone = [Told::Refused(19), Told::Refused(20), Told::Alone].map(|told| all.get(&told).unwrap_or(&0));
        println!("{} offers and claims refused 19, {} clearings refused 20, {} clearings and rises of the slowest reader done (R-4)", alone[0], alone[1], alone[2]);
        println!("seasons of up to {} terms", self.longest);
    }
}

fn cells(tolds: &BTreeMap<Told, u64>) -> [String; 5] {
    let compared: u64 = tolds.iter().filter(|(told, _)| matches!(told, Told::Compared(_))).map(|(_, n)| n).sum();
    let mut texts = [const { Vec::new() }; 4];
    for (told, n) in tolds {
        match told {
            Told::Compared(0) => {}
            Told::Compared(number) => texts[0].push(format!("{number}: {n}")),
            Told::Stopped => texts[1].push(n.to_string()),
            Told::Refused(number) => texts[2].push(format!("{number}: {n}")),
            Told::Empty => texts[2].push(format!("empty: {n}")),
            Told::Overflowed => texts[3].push(format!("overflow: {n}")),
            Told::ClosedAndLong => texts[3].push(format!("R-3: {n}")),
            Told::Wrapped => texts[3].push(format!("R-8: {n}")),
            Told::Alone => texts[3].push(format!("R-4: {n}")),
            Told::ByHand => texts[3].push(format!("by hand: {n}")),
        }
    }
    let [refused, stopped, outside, left] = texts.map(|cell| cell.join(", "));
    [compared.to_string(), refused, stopped, outside, left]
}

/// A difference, with the list that led to it.
struct Difference {
    start: Start,
    calls: Vec<Call>,
    what: String,
}

/// Runs one list; its calls are kept only as far as a difference needs them.
fn run(mut list: List, table: &mut Table) -> Result<(), Difference> {
    let start = list.start;
    let mut calls: Vec<Call> = Vec::new();
    let mut world = World::open(&start).map_err(|what| Difference { start, calls: Vec::new(), what })?;
    for _ in 0..list.length {
        let call = list.next(&world.port);
        let outcome = world.step(&call);
        calls.push(call);
        match outcome {
            Ok(told) => table.count(calls.last().expect("just pushed"), told),
            Err(what) => return Err(Difference { start, calls, what }),
        }
        list.note(calls.last().expect("just pushed"), &world.answered, &world.port);
    }
    if list.kind == lists::Kind::Season {
        table.longest = table.longest.max(world.port.record.active_term_count);
    }
    world.whole_log().map_err(|what| Difference { start, calls, what })
}

/// Does this list show a difference, and at which call?
fn differs(start: &Start, calls: &[Call]) -> Option<(usize, String)> {
    let mut world = World::open(start).ok()?;
    for (k, call) in calls.iter().enumerate() {
        if let Err(what) = world.step(call) {
            return Some((k, what));
        }
    }
    None
}

/// Leaves out one call after the other, from the last, as long as a difference stays.
fn shortest(mut found: Difference) -> Difference {
    let mut k = found.calls.len();
    while k > 0 {
        k -= 1;
        let mut fewer = found.calls.clone();
        fewer.remove(k);
        if let Some((at, what)) = differs(&found.start, &fewer) {
            fewer.truncate(at + 1);
            k = k.min(fewer.len());
            found = Difference { start: found.start, calls: fewer, what };
        }
    }
    found
}

/// A call as text, a long message cut: the bytes seldom matter, and the seed gives them again.
fn short(call: &Call) -> String {
    let text = format!("{call:?}");
    match (text.find('['), text.find(']')) {
        (Some(from), Some(to)) if to - from > 200 => {
            let numbers = text[from..to].matches(',').count() + 1;
            format!("{}[{numbers} numbers{}", &text[..from], &text[to..])
        }
        _ => text,
    }
}

fn report(seed: u64, index: u64, found: Difference, is_first: bool) {
    println!("a difference: seed {seed}, list {index}, call {}", found.calls.len());
    println!("{}\n{}", found.calls.last().map(short).unwrap_or_default(), found.what);
    if is_first {
        return;
    }
    let found = shortest(found);
    println!("\nthe shortest list found: opened with {:?}", found.start);
    found.calls.iter().for_each(|call| println!("  {}", short(call)));
    println!("{}", found.what);
}

fn main() {
    let mut arguments = std::env::args().skip(1);
    let (mut calls, mut seed, mut is_long, mut is_first) = (200_000, 1, false, false);
    while let Some(argument) = arguments.next() {
        let mut number = || arguments.next().and_then(|text| text.parse().ok()).expect("a number after the option");
        match argument.as_str() {
            "--calls" => calls = number(),
            "--seed" => seed = number(),
            "--long" => is_long = true,
            "--first" => is_first = true,
            _ => panic!("compare [--calls N] [--seed S] [--long] [--first]"),
        }
    }
    // Panics of the Rust are caught and told; their messages would fill the screen.
    std::panic::set_hook(Box::new(|_| {}));
    let mut table = Table::default();
    let mut index = 0;
    while table.compared < calls || (is_long && index == 0) {
        let of = seed.wrapping_mul(0x1000_0000).wrapping_add(index);
        let list = if is_long && index == 0 { List::largest(of) } else { List::new(of, is_long) };
        if let Err(found) = run(list, &mut table) {
            table.print();
            report(seed, index, found, is_first);
            std::process::exit(1);
        }
        index += 1;
    }
    table.print();
    if is_long {
        match slices::run() {
            Ok(count) => println!("{count} calls with slices of 2147483647 and one more, as 01 says"),
            Err(what) => {
                println!("a difference: {what}");
                std::process::exit(1);
            }
        }
    }
    println!("{index} lists from seed {seed}, 0 differences");
}
