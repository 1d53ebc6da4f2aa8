//! Parts of a page that a command writes, each between the lines `<!-- NAME -->` and `<!-- end of NAME -->`.

use std::fs;
use std::path::Path;
use std::process::Command;

/// Whether the page has the part: to be asked before a long run.
pub fn check(page: &Path, name: &str) -> Result<(), String> {
    around(page, name).map(|_| ())
}

/// Puts the text in the place of a part.
pub fn replace(page: &Path, name: &str, text: &str) -> Result<(), String> {
    let [before, after] = around(page, name)?;
    fs::write(page, [&before, text, &after].concat())
        .map_err(|why| format!("{} can't be written: {why}", page.display()))
}

/// What stands before and after a part, with the lines around it.
fn around(page: &Path, name: &str) -> Result<[String; 2], String> {
    let shown = page.display();
    let text = fs::read_to_string(page).map_err(|why| format!("{shown} can't be read: {why}"))?;
    let (first, last) = (format!("<!-- {name} -->\n"), format!("<!-- end of {name} -->\n"));
    let start = text.find(&first).map(|start| start + first.len());
    let end = text.find(&last);
    match (start, end) {
        (Some(start), Some(end)) if start <= end => Ok([text[..start].to_string(), text[end..].to_string()]),
        _ => Err(format!("{shown} has no lines {} and {}", first.trim_end(), last.trim_end())),
    }
}

/// The date, as in 2026-11-16.
pub fn today() -> String {
    let output = Command::new("date").arg("+%F").output().expect("date can be run");
    String::from_utf8_lossy(&output.stdout).trim().to_string()
}
