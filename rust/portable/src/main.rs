//! `portable HEADER CRATES < MIR`: the C file of what `portable/mir` prints of some crates, one behind the other, with the header's functions and the names of the
//! sources below CRATES.
use portable::{translate, Names};
use std::error::Error;
use std::io::Read;
use std::path::Path;
use std::{env, fs, io};

fn main() -> Result<(), Box<dyn Error>> {
    let [header, crates] =
        <[String; 2]>::try_from(env::args().skip(1).collect::<Vec<_>>()).map_err(|_| "portable HEADER CRATES < MIR")?;
    let mut mir = String::new();
    io::stdin().read_to_string(&mut mir)?;
    print!("{}", translate(&mir, &fs::read_to_string(&header)?, &names(Path::new(&crates))?)?);
    Ok(())
}

fn names(crates: &Path) -> io::Result<Names> {
    let mut names = Names::default();
    for krate in fs::read_dir(crates)? {
        let krate = krate?;
        let sources = krate.path().join("src");
        if !sources.is_dir() {
            continue;
        }
        for file in fs::read_dir(sources)? {
            names.read(&krate.file_name().to_string_lossy(), &fs::read_to_string(file?.path())?);
        }
    }
    Ok(names)
}
