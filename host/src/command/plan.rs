//! `rinnamoyle plan`

use super::amounts::{grouped, size, time};
use super::card::cost;
use super::meter::seconds_per_mixing;
use super::options::{Known, Options};
use super::plot::{self, Picture};
use super::progress::watched;
use super::{files, refused, Said};
use rinnamoyle::{read_card, Cost, DerivationRefusal, Plan};
use std::path::Path;
use std::time::Duration;

pub const KNOWN: Known = Known {
    valued: &["--n", "--r", "--p", "--card", "--scratch", "--allowance", "--plot"],
    bare: &[],
    often: &["--scratch"],
};

/// How long each row is measured.
const LONG: Duration = Duration::from_millis(120);

/// A scratch and what it buys.
struct Row {
    scratch: u64,
    bought: Result<Bought, DerivationRefusal>,
}

struct Bought {
    plan: Plan,
    seconds_per_mixing: f64,
}

pub fn run(options: &Options) -> Result<Said, String> {
    options.no_plain()?;
    let cost = costs(options)?;
    let allowance = options.amount("--allowance")?;
    let asked = options.amounts("--scratch")?;
    let rows = measured(cost, scratches(cost, &asked));
    let mut text = table(cost, &rows, allowance);
    if let Some(file) = options.value("--plot") {
        let picture = Picture { cost, seconds_per_mixing: usual(&rows), marks: &asked, allowance };
        files::write(Path::new(file), plot::drawn(&picture).as_bytes(), true)?;
        text += &format!("\n{}: the picture\n", Path::new(file).display());
    }
    Ok(Said::well(text))
}

fn costs(options: &Options) -> Result<Cost, String> {
    let Some(file) = options.value("--card") else { return cost(options) };
    if let Some(name) = ["--n", "--r", "--p"].into_iter().find(|name| options.has(name)) {
        return Err(format!("--card brings its own costs: leave out {name}"));
    }
    let bytes = files::read(Path::new(file))?;
    Ok(read_card(&bytes).map_err(refused)?.cost())
}

/// The scratch sizes asked for, or the shortest for each spacing.
fn scratches(cost: Cost, asked: &[u64]) -> Vec<u64> {
    if asked.is_empty() {
        cost.spacings().map(|spacing| cost.scratch(spacing)).collect()
    } else {
        asked.to_vec()
    }
}

fn measured(cost: Cost, scratches: Vec<u64>) -> Vec<Row> {
    let row = |scratch| {
        let measured = |plan| Bought { plan, seconds_per_mixing: seconds_per_mixing(cost, plan, LONG) };
        Row { scratch, bought: cost.plan(scratch).map(measured) }
    };
    watched("measuring", || scratches.into_iter().map(row).collect())
}

/// The middle one of the rows' measurements: one picture has one scale of time.
fn usual(rows: &[Row]) -> f64 {
    let mut each: Vec<f64> = rows.iter().flat_map(|row| &row.bought).map(|bought| bought.seconds_per_mixing).collect();
    each.sort_by(f64::total_cmp);
    each.get(each.len() / 2).copied().unwrap_or(1e-6)
}

fn table(cost: Cost, rows: &[Row], allowance: Option<u64>) -> String {
    let Cost { n, r, p } = cost;
    let mut lines = vec![format!("N = {}, r = {r}, p = {p}: blocks of {} bytes\n", grouped(n), grouped(cost.block()))];
    lines.push(line(&["scratch", "", "k", "stored", "mixings at worst", "usually", "at worst"].map(String::from)));
    lines.extend(rows.iter().map(|row| told(cost, row, allowance)));
    lines.join("\n") + "\n"
}

fn told(cost: Cost, row: &Row, allowance: Option<u64>) -> String {
    let length = [grouped(row.scratch), size(row.scratch)];
    match &row.bought {
        Err(refusal) => line(&length) + "  refused: " + &refusal.to_string(),
        Ok(bought) => {
            let over = allowance.is_some_and(|allowance| bought.plan.worst > allowance);
            line(&[&length[..], &cells(cost, bought)].concat()) + if over { "  refused: 9" } else { "" }
        }
    }
}

fn cells(cost: Cost, bought: &Bought) -> [String; 5] {
    let Bought { plan, seconds_per_mixing } = bought;
    let lasting = |mixings: u64| time(mixings as f64 * seconds_per_mixing);
    let [spacing, stored, worst] = [plan.spacing, plan.stored, plan.worst].map(grouped);
    [spacing, stored, worst, lasting(plan.expected(cost)), lasting(plan.worst)]
}

/// Cells under each other: as many columns as there are cells.
fn line(cells: &[String]) -> String {
    let widths = [15, 10, 9, 9, 20, 9, 9];
    let padded = |(cell, width): (&String, usize)| format!("{cell:>width$}");
    cells.iter().zip(widths).map(padded).collect::<Vec<_>>().join(" ")
}
