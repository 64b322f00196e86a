//! How a time grows with a size, named.

type Term = fn(f64) -> f64;

/// The kinds of growth that are told apart, the plainest first.
const GROWTHS: [(&str, &str, Term); 3] = [
    ("linear", "n", |size| size),
    ("n log n", "n log n", |size| size * size.log2()),
    ("quadratic", "n^2", |size| size * size),
];

/// Times that differ by less than this part of the least are taken as the same.
const STEADY: f64 = 0.10;
/// A fit that misses by less than this part of each time, on average, will do.
const CLOSE: f64 = 0.04;

/// A line through the times over a growth: what it starts with, what it adds, by how much it misses.
struct Fit {
    base: f64,
    each: f64,
    miss: f64,
}

/// The growth's name, and the time as a formula in nanoseconds: of those that come close the plainest, else the closest.
pub fn growth(sizes: &[usize], times: &[u64]) -> String {
    let least = times.iter().min().map_or(0.0, |&time| time as f64);
    let most = times.iter().max().map_or(0.0, |&time| time as f64);
    let fits = GROWTHS.map(|(name, term, grown)| (name, term, fit(sizes, times, grown)));
    if most <= least * (1.0 + STEADY) || fits[0].2.each <= 0.0 {
        return format!("constant: {least:.0}");
    }
    let close = fits.iter().find(|(_, _, fit)| fit.miss < CLOSE);
    let closest = || {
        fits.iter()
            .min_by(|(_, _, one), (_, _, other)| one.miss.total_cmp(&other.miss))
    };
    match close.or_else(closest) {
        Some((name, term, fit)) => format!("{name}: {:.0} + {:.3} {term}", fit.base, fit.each),
        None => "unknown".to_string(),
    }
}

/// Least squares of the misses as parts of the times, so that small sizes count as much as large ones.
fn fit(sizes: &[usize], times: &[u64], grown: Term) -> Fit {
    let points: Vec<(f64, f64)> = sizes
        .iter()
        .zip(times)
        .map(|(&size, &time)| (grown(size as f64), (time as f64).max(1.0)))
        .collect();
    let sum = |of: fn(f64, f64) -> f64| points.iter().map(|&(x, y)| of(x, y)).sum::<f64>();
    // weights are 1 / y^2
    let (w, x, y) = (
        sum(|_, y| 1.0 / (y * y)),
        sum(|x, y| x / (y * y)),
        sum(|_, y| 1.0 / y),
    );
    let (xx, xy) = (sum(|x, y| x * x / (y * y)), sum(|x, y| x / y));
    let each = (w * xy - x * y) / (w * xx - x * x);
    let base = (y - each * x) / w;
    let missed = |(x, y): &(f64, f64)| ((base + each * x - y) / y).powi(2);
    let miss = points.iter().map(missed).sum::<f64>() / points.len() as f64;
    Fit {
        base,
        each,
        miss: miss.sqrt(),
    }
}
