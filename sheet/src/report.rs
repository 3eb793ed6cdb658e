//! What is printed of a run.

use crate::advice::advice;
use crate::number::{bits, decimal};
use crate::run::{Outcome, Refused};
use engine::balance::{Amount, Balance, CellBalance};
use engine::{Metrics, VectorField};
use std::cmp::Ordering;

/// The heading of the fluxes.
pub const FLUX_HEADING: &str = "face flux";

/// The heading of the outflows.
pub const OUTFLOW_HEADING: &str = "cell outflow";

/// The heading of the gradients.
pub const GRADIENT_HEADING: &str = "cell gradient";

/// A bound is a whole number of units of 2 to the minus this.
const BOUND_PLACES: u32 = 1127;

/// Fluxes, outflows, metrics and balance.
pub fn outcome(outcome: &Outcome) -> String {
    let mut text = String::new();
    list(&mut text, FLUX_HEADING, outcome.flux.values());
    list(&mut text, OUTFLOW_HEADING, outcome.outflow.values());
    metrics(&mut text, &outcome.metrics);
    match &outcome.balance {
        Ok(balance) => mass_balance(&mut text, balance),
        Err(error) => line(&mut text, &format!("no mass balance: {error}")),
    }
    text
}

/// The gradient of each cell: its three numbers, in 2D too.
pub fn gradient(gradient: &VectorField) -> String {
    let mut text = String::new();
    line(&mut text, GRADIENT_HEADING);
    for (cell, vector) in gradient.vectors().enumerate() {
        line(&mut text, &format!("{cell} {}", vector.map(bits).join(" ")));
    }
    text
}

/// A refusal: the engine's sentence; number, index and the engine's function; what is wrong; what to do.
pub fn refusal(refused: &Refused) -> String {
    let refusal = &refused.refusal;
    format!(
        "{refusal}\nrefusal {} index {} by {}\n{}\n{}\n",
        refusal.kind.number(),
        refusal.index,
        refused.by,
        refusal.reason(),
        advice(refused)
    )
}

fn line(text: &mut String, line: &str) {
    text.push_str(line);
    text.push('\n');
}

/// A heading, and a line of number and bits for each value.
fn list(text: &mut String, heading: &str, values: &[f64]) {
    line(text, heading);
    for (at, &value) in values.iter().enumerate() {
        line(text, &format!("{at} {}", bits(value)));
    }
}

fn metrics(text: &mut String, metrics: &Metrics) {
    line(text, "metrics");
    for (name, value) in [
        ("root-mean-square-outflow", metrics.root_mean_square),
        ("largest-divergence", metrics.largest_divergence),
    ] {
        line(text, &format!("{name} {} {}", bits(value), decimal(value)));
    }
}

/// Of all cells and of the one nearest its bound: difference and bound as decimals, then both as whole numbers.
fn mass_balance(text: &mut String, balance: &Balance) {
    line(text, "mass balance");
    let total = &balance.total;
    limits(text, "all cells", &total.difference, &total.bound);
    if let Some((cell, nearest)) = nearest(&balance.cells) {
        let who = format!(
            "cell {cell}, nearest its bound ({})",
            percent(share(nearest))
        );
        limits(text, &who, &nearest.difference, &nearest.bound);
    }
    line(text, "whole numbers count 2^-1127, which is 2^-1074 / 2^53");
    let verdict = if balance.holds() {
        "holds, for every cell and for all cells together"
    } else {
        "does not hold"
    };
    line(text, verdict);
}

fn limits(text: &mut String, who: &str, difference: &Amount, bound: &Amount) {
    let [difference, bound] = [difference, bound].map(|amount| {
        let units = amount.whole().shifted(BOUND_PLACES - amount.places());
        (short(amount), units.to_string())
    });
    line(
        text,
        &format!("{who}: difference {} of at most {}", difference.0, bound.0),
    );
    line(text, &format!("  difference {}", difference.1));
    line(text, &format!("  bound      {}", bound.1));
}

/// Six digits of an amount, without zeros at their end.
fn short(amount: &Amount) -> String {
    let text = amount.scientific(6);
    match text.split_once('e') {
        None => text,
        Some((digits, power)) => {
            let digits = digits.trim_end_matches('0').trim_end_matches('.');
            format!("{digits}e{power}")
        }
    }
}

/// The cell that uses the largest share of its bound, the lowest of such cells.
fn nearest(cells: &[CellBalance]) -> Option<(usize, &CellBalance)> {
    let mut found: Option<(usize, &CellBalance, u64)> = None;
    for (cell, balance) in cells.iter().enumerate() {
        let share = share(balance);
        if found.is_none_or(|(_, _, most)| share > most) {
            found = Some((cell, balance, share));
        }
    }
    found.map(|(cell, balance, _)| (cell, balance))
}

/// The share of its bound that a cell's difference uses, in units of 2^-32, rounded down; more than any where the
/// difference is beyond the bound.
fn share(balance: &CellBalance) -> u64 {
    if balance.difference == Amount::zero() {
        return 0;
    }
    match balance.difference.cmp(&balance.bound) {
        Ordering::Less => {}
        Ordering::Equal => return 1 << 32,
        Ordering::Greater => return u64::MAX,
    }
    let mut share = 0;
    let mut rest = balance.difference.clone();
    for _ in 0..32 {
        rest = rest.plus(&rest);
        share *= 2;
        if rest >= balance.bound {
            rest = rest.minus(&balance.bound);
            share += 1;
        }
    }
    share
}

fn percent(share: u64) -> String {
    if share > 1 << 32 {
        return "beyond it".to_string();
    }
    format!("{:.1}%", share as f64 / 2f64.powi(32) * 100.0)
}
