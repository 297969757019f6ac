//! What the comparisons met, as lines to read.

const WIDTH: usize = 150;

/// A list under its title, in as many lines as it needs.
pub fn list(title: &str, items: impl Iterator<Item = String>) -> String {
    let mut text = String::new();
    let mut line = format!("  {title}:");
    let mut separator = " ";
    for item in items {
        if line.len() + separator.len() + item.len() > WIDTH {
            text = format!("{text}\n{line},");
            line = "   ".to_string();
            separator = " ";
        }
        line = format!("{line}{separator}{item}");
        separator = ", ";
    }
    format!("{text}\n{line}")
}

/// How often each of the names was met; those never met are left out.
pub fn met(title: &str, names: &[&str], times: &[u64]) -> String {
    let named = names.iter().zip(times);
    let items = named.filter(|(_, times)| **times > 0);
    list(title, items.map(|(name, times)| format!("{name}: {times}")))
}
