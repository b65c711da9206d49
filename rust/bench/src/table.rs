//! The tables that are printed.

use crate::clock::Pair;

pub fn print_heading(title: &str, unit: &str) {
    println!("\n### {title}: {unit}\n");
    println!("| Sheet | Baseline | Proved | Ratio |");
    println!("|---|---:|---:|---:|");
}

pub fn print_row(name: &str, times: Pair<f64>) {
    let Pair { baseline, library } = times;
    println!("| {name} | {} | {} | {:.1} |", figure(baseline), figure(library), library / baseline);
}

/// A number with about three figures.
fn figure(value: f64) -> String {
    match value {
        value if value >= 100.0 => format!("{value:.0}"),
        value if value >= 10.0 => format!("{value:.1}"),
        value => format!("{value:.2}"),
    }
}

#[cfg(test)]
mod tests {
    use super::figure;

    #[test]
    fn numbers_have_about_three_figures() {
        assert_eq!(
            [0.123, 1.236, 12.34, 123.4, 12345.6].map(figure),
            ["0.12", "1.24", "12.3", "123", "12346"]
        );
    }
}
