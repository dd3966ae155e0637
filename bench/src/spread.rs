//! Medians, and ratios with their spread.

/// The element that so large a part of the sorted numbers stands before.
fn quantile(numbers: &[f64], part: f64) -> f64 {
    let mut sorted = numbers.to_vec();
    sorted.sort_by(f64::total_cmp);
    let last = sorted.len() - 1;
    sorted[(part * last as f64).round() as usize]
}

pub fn median(numbers: &[f64]) -> f64 {
    quantile(numbers, 0.5)
}

/// The ratio of two medians, and the 10th and the 90th percentile of the rounds' ratios.
#[derive(Clone, Copy)]
pub struct Ratio {
    pub middle: f64,
    pub low: f64,
    pub high: f64,
}

impl Ratio {
    /// Of the rounds of one contestant to those of another.
    pub fn of(one: &[f64], other: &[f64]) -> Ratio {
        let rounds: Vec<f64> = one.iter().zip(other).map(|(a, b)| a / b).collect();
        Ratio {
            middle: median(one) / median(other),
            low: quantile(&rounds, 0.1),
            high: quantile(&rounds, 0.9),
        }
    }
}
