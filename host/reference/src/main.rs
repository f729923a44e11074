//! Compares spline.rs with libjxl's splines; `tools/reference` runs it, from the repository's top.

mod figures;
mod files;
mod limits;
mod pfm;
mod rules;
mod said;
mod tree;

use figures::Figures;
use files::File;
use std::path::Path;
use std::process::ExitCode;

const USAGE: &str = "\
usage, from the repository's top:
  reference make FOLDER       writes every description as NAME.tree, for jxl_from_tree
  reference compare FOLDER    compares with NAME.pfm, which djxl has made of it, or with NAME.said where it refused
";

/// Writes the trees.
fn make(folder: &Path) -> Result<bool, String> {
    let limits = limits::all()?.into_iter().map(|limit| limit.file);
    for file in files::all()?.into_iter().chain(limits) {
        let path = folder.join(file.name.clone() + ".tree");
        std::fs::write(&path, tree::text(&file))
            .map_err(|why| format!("{}: {why}", path.display()))?;
    }
    Ok(true)
}

/// libjxl's picture, or none where there is no such file.
fn there(folder: &Path, file: &File) -> Result<Option<rules::Picture>, String> {
    match std::fs::read(folder.join(file.name.clone() + ".pfm")) {
        Err(_) => Ok(None),
        Ok(bytes) => pfm::read(&bytes, file.width, file.height)
            .map(Some)
            .map_err(|why| format!("{}.pfm: {why}", file.name)),
    }
}

/// Compares everything; whether all is as docs/DIFFERENCES.md says.
fn compare(folder: &Path) -> Result<bool, String> {
    let mut kinds: Vec<(&str, Figures)> = Vec::new();
    let (mut shown, mut refused) = (String::new(), Vec::new());
    for file in files::all()? {
        let Some(there) = there(folder, &file)? else {
            refused.push(file.name);
            continue;
        };
        let figures = Figures::of(&file, &there)?;
        if file.shown {
            shown += &said::shown(&file, &figures, &there)?;
        }
        match kinds.last_mut() {
            Some((kind, sum)) if *kind == file.kind => sum.add(&figures),
            _ => kinds.push((file.kind, figures)),
        }
    }
    let mut total = Figures::default();
    kinds.iter().for_each(|(_, figures)| total.add(figures));
    print!("{}{}", said::total(&total, &refused), said::kinds(&kinds));
    print!("\nOne by one\n{shown}");
    Ok(limits(folder)? && total.unexplained() == 0)
}

/// Who takes what lies on either side of a limit; whether it is as the page says.
fn limits(folder: &Path) -> Result<bool, String> {
    println!("\nLimits: spline.rs at Level5, at Level10; libjxl");
    let mut known = true;
    for limit in limits::all()? {
        let file = &limit.file;
        let said =
            std::fs::read_to_string(folder.join(file.name.clone() + ".said")).unwrap_or_default();
        let answers = [
            limits::here(file, false),
            limits::here(file, true),
            limits::there(there(folder, file)?.is_some(), &said),
        ];
        let new = if answers == limit.known { "" } else { "NEW: " };
        known &= new.is_empty();
        println!("  {new}{:18} {}", file.name, answers.join("; "));
    }
    Ok(known)
}

fn main() -> ExitCode {
    quiet::end_with_the_reader();
    oracle::set_ln(model::logarithm::ln);
    let words: Vec<String> = std::env::args().skip(1).collect();
    let words: Vec<&str> = words.iter().map(String::as_str).collect();
    let done = match words[..] {
        ["make", folder] => make(Path::new(folder)),
        ["compare", folder] => compare(Path::new(folder)),
        _ => {
            print!("{USAGE}");
            return ExitCode::from(2);
        }
    };
    match done {
        Ok(true) => ExitCode::SUCCESS,
        Ok(false) => {
            println!("NOT as docs/DIFFERENCES.md says");
            ExitCode::FAILURE
        }
        Err(why) => {
            println!("reference: {why}");
            ExitCode::FAILURE
        }
    }
}
