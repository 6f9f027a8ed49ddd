//! The table, in Markdown.

/// The figure that says when speed bounds the main origin.
pub const BOUNDED: &str = "main origin bounded by speed, min";

pub fn head() {
    println!("| Source | Case | Figure | Published | Ours |");
    println!("|---|---|---|---|---|");
}

/// One line: what the source is, and its case, figure and value beside ours.
pub fn row(source: &str, case: &str, figure: &str, published: &str, ours: &str) {
    println!("| {source} | {case} | {figure} | {published} | {ours} |");
}

/// A line on time spent in veh·h, with what is saved against that without
/// control in %.
pub fn spent(source: &str, case: &str, published: &str, without: f64, ours: f64) {
    let saved = 100.0 * (without - ours) / without;
    let ours = format!("{ours:.1} ({saved:.1} %)");
    row(source, case, "time spent, veh·h (saved)", published, &ours);
}

/// A time in minutes since the start, or that it never came.
pub fn minutes(seconds: Option<u64>) -> String {
    match seconds {
        Some(seconds) => format!("{:.0}", seconds as f64 / 60.0),
        None => "never".into(),
    }
}
