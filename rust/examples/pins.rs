//! Two placements are settled: they are pinned, and no walk moves them. `cargo run --release --offline
//! --example pins` prints what stands in `examples/pins.out`, as `examples/pins.c` does.

use ngiyarumba::{Error, Order, Tables};

/// The merge of `examples/sheets/merge.txt`: the name `can:riv` stands for: Canals goes under Rivers.
const TEXT: &str = "\
bil:riv bil:wet\nbor:sup bor:wet\ncan:riv can:sup\ncrk:riv crk:wet\nest:cst est:riv
~bil:riv ~bil:wet\n~bor:sup ~bor:wet\n~can:riv ~can:sup\n~crk:riv ~crk:wet\n~est:cst ~est:riv
~can:riv ~crk:riv\n~bil:wet ~bor:wet\n~bil:wet ~crk:wet\n~bor:wet ~crk:wet\n~crk:riv est:riv
";

fn main() -> Result<(), Error> {
    print!("{}", pins()?);
    Ok(())
}

/// All that is printed.
pub fn pins() -> Result<String, Error> {
    let mut tables = Tables::new();
    tables.read(TEXT)?;
    let number_of = |name| tables.number_of(name).expect("the text names it");
    let [canals, estuaries] = ["can:riv", "est:cst"].map(number_of);
    let mut lines = walk_three_times("No term is pinned.", &mut tables)?;
    tables.pin(canals, true)?;
    tables.pin(estuaries, true)?;
    let pinned = "Canals are pinned under Rivers, Estuaries under Coasts.";
    lines += &walk_three_times(pinned, &mut tables)?;
    lines += &try_to_flip("can:riv", canals, &mut tables);
    tables.lift(estuaries)?;
    lines += &walk_three_times("Estuaries are free again.", &mut tables)?;
    Ok(lines)
}

fn walk_three_times(said: &str, tables: &mut Tables) -> Result<String, Error> {
    let walked: Result<String, Error> = (1..=3).map(|seed| walk(seed, tables)).collect();
    Ok(format!("{said}\n{}", walked?))
}

fn walk(seed: u32, tables: &mut Tables) -> Result<String, Error> {
    let order = Order {
        seed,
        flips: 1_000,
        ..Order::default()
    };
    let result = match tables.walk(order)?.is_found() {
        true => "found",
        false => "gave up",
    };
    Ok(format!("seed {seed}, {result}: {}\n", chosen(tables)))
}

/// The placements that are chosen, a `*` after those that are pinned.
fn chosen(tables: &Tables) -> String {
    let terms = tables.terms().zip(tables.marks());
    let chosen = terms.filter(|((_, value), _)| *value);
    let names = chosen.map(|((name, _), mark)| match mark {
        0 => name,
        _ => name + "*",
    });
    names.collect::<Vec<_>>().join(" ")
}

fn try_to_flip(name: &str, term: u16, tables: &mut Tables) -> String {
    let (result, reason) = match tables.flip(&[term]) {
        Ok(_) => ("applied", 0),
        Err(error) => ("refused", error.reason().number()),
    };
    format!("A flip list with {name} is {result}, reason {reason}.\n")
}
