//! The samples of the repository: their listings, and each of their tokens back to its bytes.

use agal::{check, listing, tokens, Edition};
use std::fs;
use std::path::{Path, PathBuf};

fn samples() -> Vec<PathBuf> {
    let folder = Path::new(env!("CARGO_MANIFEST_DIR")).join("../../samples");
    let mut found: Vec<PathBuf> = fs::read_dir(folder)
        .expect("the folder of samples")
        .map(|entry| entry.expect("an entry").path())
        .filter(|path| path.extension().is_some_and(|e| e == "agal"))
        .collect();
    found.sort();
    assert!(found.len() >= 7, "samples are missing");
    found
}

/// The edition and the program's bytes.
fn sample(path: &Path) -> (Edition, Vec<u8>) {
    let mut bytes = fs::read(path).expect("a sample");
    let number = u32::from(bytes.remove(0) - b'0');
    let edition = Edition::try_from(number).expect("an edition");
    (edition, bytes)
}

#[test]
fn each_listing_is_the_text_beside_it() {
    for path in samples() {
        let (edition, program) = sample(&path);
        let text = fs::read_to_string(path.with_extension("txt")).expect("a text");
        assert_eq!(listing(&program, edition), text, "{}", path.display());
    }
}

#[test]
fn each_check_agrees_with_the_listing() {
    for path in samples() {
        let (edition, program) = sample(&path);
        let text = listing(&program, edition);
        match check(&program, edition) {
            Ok(accepted) => assert_eq!(
                text.lines().count(),
                1 + accepted.tokens,
                "{}",
                path.display()
            ),
            Err(r) => assert_eq!(
                text,
                format!("refused {} at {} part {}\n", r.number, r.token, r.part)
            ),
        }
    }
}

#[test]
fn each_token_encodes_to_its_bytes() {
    for path in samples() {
        let (_, program) = sample(&path);
        let mut bytes = program[..7].to_vec();
        for token in tokens(&program) {
            bytes.extend(token.and_then(|t| t.encode()).expect("a token"));
        }
        assert_eq!(bytes, program, "{}", path.display());
    }
}

#[test]
fn a_line_has_its_depth() {
    let (_, program) = sample(&samples()[0]);
    let token = tokens(&program)
        .next()
        .expect("a token")
        .expect("not refused");
    let line = token.line(agal::Stage::Fragment, 0).expect("a line");
    assert_eq!(
        token.line(agal::Stage::Fragment, 16),
        Ok(format!("{:32}{line}", ""))
    );
    assert_eq!(
        token.line(agal::Stage::Fragment, 17).map_err(|r| r.number),
        Err(25)
    );
}
