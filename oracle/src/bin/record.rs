//! record [--model]: makes anew all in the repository that holds an answer, the
//! answers by the original or by the second model.

use oracle::records;
use std::fs;
use std::path::Path;

fn main() -> std::io::Result<()> {
    let words: Vec<String> = std::env::args().skip(1).collect();
    let answer = match &words[..] {
        [] => oracle::answer,
        [word] if word == "--model" => oracle::model_answer,
        _ => {
            eprintln!("record [--model]");
            std::process::exit(2);
        }
    };
    let root = Path::new(env!("CARGO_MANIFEST_DIR")).join("..");
    let mut changed = 0;
    let files = records::files(&root, answer)?;
    for (path, text) in &files {
        if !fs::read(path).is_ok_and(|old| old == *text) {
            fs::write(path, text)?;
            changed += 1;
        }
    }
    println!("{} files, {changed} of them changed", files.len());
    Ok(())
}
