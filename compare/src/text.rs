//! Inputs as readable text and back, by the one text tool: `m2m text`.

use std::io::Write;
use std::path::{Path, PathBuf};
use std::process::{Command, Stdio};

/// The folder that holds this package.
pub fn root() -> PathBuf {
    let package = Path::new(env!("CARGO_MANIFEST_DIR"));
    package.parent().unwrap_or(package).to_path_buf()
}

/// What the tool prints for these bytes, or its complaint.
fn tool(words: &[&str], bytes: &[u8]) -> Result<String, String> {
    let path = root().join("tools/m2m");
    let fault = |error| format!("{}: {error}", path.display());
    let mut child = Command::new(&path)
        .arg("text")
        .args(words)
        .stdin(Stdio::piped())
        .stdout(Stdio::piped())
        .stderr(Stdio::piped())
        .spawn()
        .map_err(fault)?;
    let mut stdin = child.stdin.take().expect("it was piped");
    let output = std::thread::scope(|scope| {
        scope.spawn(move || stdin.write_all(bytes));
        child.wait_with_output()
    })
    .map_err(fault)?;
    let text = |bytes: &[u8]| String::from_utf8_lossy(bytes).into_owned();
    match output.status.success() {
        true => Ok(text(&output.stdout)),
        false => Err(text(&output.stderr)),
    }
}

fn shown(words: &[&str], bytes: &[u8]) -> String {
    tool(words, bytes).unwrap_or_else(|fault| format!("# {fault}\nraw {}\n", hex(bytes)))
}

pub fn sheet(bytes: &[u8]) -> String {
    shown(&["show-sheet"], bytes)
}

pub fn entitlements(bytes: &[u8]) -> String {
    shown(&["show-entitlements"], bytes)
}

/// The lines of each case file below a folder, bytes in hexadecimal digits.
pub fn cases(folder: &Path) -> Result<Vec<Vec<String>>, String> {
    let text = tool(&["cases", &folder.to_string_lossy()], &[])?;
    let cases = text.split_terminator("end\n");
    Ok(cases
        .map(|case| case.lines().map(String::from).collect())
        .collect())
}

/// A case file's path, below the repository's root where it stands there.
pub fn below_root(path: &str) -> String {
    let root = format!("{}/", root().display());
    path.strip_prefix(&root).unwrap_or(path).to_string()
}

pub fn hex(bytes: &[u8]) -> String {
    bytes.iter().map(|byte| format!("{byte:02x}")).collect()
}

pub fn from_hex(digits: &str) -> Option<Vec<u8>> {
    (0..digits.len())
        .step_by(2)
        .map(|k| u8::from_str_radix(digits.get(k..k + 2)?, 16).ok())
        .collect()
}

#[cfg(test)]
mod tests {
    use super::*;
    use second::draft;

    #[test]
    fn sheet_s_reads_as_in_the_samples() {
        let sample = include_str!("../../samples/sheet-s/sheet.txt");
        let plain: String = sample
            .lines()
            .filter(|line| !line.starts_with('#'))
            .map(|line| format!("{line}\n"))
            .collect();
        assert_eq!(sheet(&draft::sheet_s().concat()), plain);
        let list = "entitlement \"A\\\\B\" 100\n";
        assert_eq!(entitlements(&draft::list_s()), list);
    }

    #[test]
    fn hexadecimal_digits_are_read_back() {
        assert_eq!(from_hex(&hex(&[0, 9, 255])), Some(vec![0, 9, 255]));
        assert_eq!(from_hex("0g"), None);
        assert_eq!(from_hex("0"), None);
    }
}
