//! The few numbers that sum many measurements up.

/// The geometric mean, which is the right one for ratios: a ratio and its inverse cancel. It is 1 of nothing.
pub fn geometric_mean(ratios: impl IntoIterator<Item = f64>) -> f64 {
    let (mut sum, mut count) = (0.0, 0);
    for ratio in ratios {
        sum += ratio.ln();
        count += 1;
    }
    if count == 0 {
        1.0
    } else {
        (sum / f64::from(count)).exp()
    }
}

/// The least of these times.
pub fn least(times: impl IntoIterator<Item = f64>) -> f64 {
    times.into_iter().fold(f64::INFINITY, f64::min)
}

/// The largest of these times.
pub fn largest(times: impl IntoIterator<Item = f64>) -> f64 {
    times.into_iter().fold(0.0, f64::max)
}

/// The exponent with which y grows in x: the slope of the line through the points' logarithms, by least squares. It is 1 for a linear growth.
pub fn growth_exponent(points: &[(f64, f64)]) -> f64 {
    let logarithms: Vec<(f64, f64)> = points.iter().map(|&(x, y)| (x.ln(), y.ln())).collect();
    let count = logarithms.len() as f64;
    let mean_x = logarithms.iter().map(|point| point.0).sum::<f64>() / count;
    let mean_y = logarithms.iter().map(|point| point.1).sum::<f64>() / count;
    let both: f64 = logarithms.iter().map(|(x, y)| (x - mean_x) * (y - mean_y)).sum();
    let square: f64 = logarithms.iter().map(|(x, _)| (x - mean_x).powi(2)).sum();
    both / square
}

#[cfg(test)]
mod tests {
    use super::*;

    fn near(a: f64, b: f64) {
        assert!((a - b).abs() < 1e-9, "{a} is not {b}");
    }

    #[test]
    fn geometric_means() {
        near(geometric_mean([2.0, 0.5]), 1.0);
        near(geometric_mean([1.0, 8.0, 27.0]), 6.0);
        near(geometric_mean([1.25]), 1.25);
        near(geometric_mean([]), 1.0);
    }

    #[test]
    fn extremes() {
        near(least([3.0, 1.5, 2.0]), 1.5);
        near(largest([3.0, 1.5, 2.0]), 3.0);
        assert_eq!(least([]), f64::INFINITY);
    }

    #[test]
    fn exponents() {
        let grown = |exponent: f64| -> Vec<(f64, f64)> { [512.0, 1024.0, 2048.0, 4096.0].map(|x: f64| (x, 7.0 * x.powf(exponent))).to_vec() };
        for exponent in [0.0, 1.0, 2.0] {
            near(growth_exponent(&grown(exponent)), exponent);
        }
    }
}
