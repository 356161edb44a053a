//! Writes the long sheets, and the reference's answers to them, to a folder.

use std::{env, fs, io, path::Path};

fn main() -> io::Result<()> {
    let folder = env::args().nth(1).expect("longsheets FOLDER");
    for (name, sheet) in reference::longsheets::long_sheets() {
        let to = Path::new(&folder).join(format!("long_{name}"));
        fs::write(to.with_extension("in"), &sheet)?;
        fs::write(to.with_extension("out"), reference::answer_sheet(&sheet))?;
    }
    Ok(())
}
