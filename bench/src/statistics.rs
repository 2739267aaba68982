//! Medians and quartiles.

use std::fmt;

/// The median of some values, and their lower and upper quartile.
#[derive(Clone, Copy, Debug, PartialEq)]
pub struct Spread {
    pub lower: f64,
    pub median: f64,
    pub upper: f64,
}

impl Spread {
    /// None if there are no values.
    pub fn of(values: &[f64]) -> Option<Spread> {
        let mut values = values.to_vec();
        values.sort_by(f64::total_cmp);
        let at = |part| quantile(&values, part);
        (!values.is_empty()).then(|| Spread { lower: at(0.25), median: at(0.5), upper: at(0.75) })
    }

    /// The spread of the ratios of pairs. A pair whose second value is 0 has no ratio, and is left
    /// out.
    pub fn of_ratios(pairs: &[[f64; 2]]) -> Option<Spread> {
        let ratios: Vec<f64> = pairs.iter().filter(|pair| pair[1] > 0.0).map(|[first, second]| first / second).collect();
        Spread::of(&ratios)
    }
}

impl fmt::Display for Spread {
    fn fmt(&self, out: &mut fmt::Formatter) -> fmt::Result {
        write!(out, "{:.2} ({:.2} to {:.2})", self.median, self.lower, self.upper)
    }
}

/// The value that this part of the sorted values doesn't exceed. If it falls between two of the
/// values, it is as far from each of them as its rank is from theirs.
fn quantile(sorted: &[f64], part: f64) -> f64 {
    let rank = part * (sorted.len() - 1) as f64;
    let (below, above) = (sorted[rank.floor() as usize], sorted[rank.ceil() as usize]);
    below + (above - below) * rank.fract()
}
