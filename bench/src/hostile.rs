//! Times rows and reductions on chains of clauses in orders that make a search by passes slow: the proved
//! library against a reference that searches by worklist and keeps rows.

use crate::generate::chains::{chain, reductions, Order};
use crate::generate::{Random, Shape, Size};
use crate::reference::row::passes;
use crate::reference::steps::Rows;
use crate::time::{heading, time_check, time_rows, Runs};

/// What takes long is run once.
const RUNS: Runs = Runs { most: 3, least: 1 };
const REDUCTIONS: usize = 4000;

pub fn hostile() {
    println!("chains of binary clauses; passes: of a search that goes by passes, in turn from the first clause and from the last");
    heading();
    for order in [Order::Near, Order::Far, Order::Shuffled, Order::Zigzag] {
        time_chain(124, 900, order);
    }
    time_chain(512, 512, Order::Far);
    time_chain(512, 512, Order::Near);
    time_drawn();
}

/// As many words as the chains of 512 links have, in clauses of three literals drawn at random.
fn time_drawn() {
    let random = &mut Random::new(5);
    let words = chain(random, 512, 512, Order::Far).clauses.len();
    let shape = Shape {
        variables: 1024,
        largest: 1024,
        universal: 0,
        clauses: words / 4,
        shortest: 3,
        longest: 3,
    };
    let mut tables = shape.tables(random);
    tables.quantify(|place| place % 2 == 0);
    let universals = tables.universals();
    let taken = universals
        .iter()
        .map(|&u| passes(&tables.prefix, &tables.clauses, u));
    let most = taken.max().unwrap_or(0);
    let name = format!("512 rows, drawn, at most {most} passes");
    time_rows(&name, RUNS, &tables, Size::Large, false);
}

fn time_chain(universals: i32, existentials: i32, order: Order) {
    let tables = chain(&mut Random::new(5), universals, existentials, order);
    let passes = passes(&tables.prefix, &tables.clauses, 1);
    let order = format!("{order:?}").to_lowercase();
    let name = format!("{universals} rows, {existentials} {order}, {passes} passes");
    time_rows(&name, RUNS, &tables, Size::Large, false);
    let steps = reductions(&tables, REDUCTIONS);
    let name = format!("{REDUCTIONS} reductions, {existentials} {order}");
    time_check(&name, RUNS, &tables, &steps, Size::Large, &[Rows::Kept]);
}
