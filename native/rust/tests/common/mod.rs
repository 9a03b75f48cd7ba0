//! What tests over custom file databases share.

/// Returns ten lines, `line0` to `line9`, of six bytes each.
pub fn ten_lines() -> String {
    (0..10).map(|line| format!("line{line}\n")).collect()
}
