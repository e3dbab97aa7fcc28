//! Writes the bytes of sets to files, or reads them: sets (write | read) FOLDER. tools/c/try-bytes
//! calls it. The sets are those of sets.c.

use std::error::Error;
use std::fs;
use std::path::Path;

use range_set::{Element, RangeSet};

fn keep<T: Element>(writes: bool, file: &Path, made: &RangeSet<T>) -> Result<(), Box<dyn Error>> {
    if writes {
        fs::write(file, made.to_bytes())?;
    } else if RangeSet::from_bytes(&fs::read(file)?)? != *made {
        return Err(format!("{} has another set", file.display()).into());
    }
    Ok(())
}

macro_rules! keep_all {
    ($writes:ident, $folder:ident: $($value:ident)*) => {
        $(
            let file = |set| $folder.join(format!("{}-{set}", stringify!($value)));
            let mut spread = RangeSet::from([$value::MAX]);
            for at in 0..1000 {
                let first = $value::MIN + 1000 * at * at;
                spread.insert_range(first..=first + 7 * at);
            }
            keep($writes, &file("spread"), &spread)?;
            keep($writes, &file("all"), &RangeSet::<$value>::universe())?;
            keep($writes, &file("none"), &RangeSet::<$value>::new())?;
        )*
    };
}

fn main() -> Result<(), Box<dyn Error>> {
    let arguments: Vec<String> = std::env::args().collect();
    let (writes, folder) = (arguments[1] == "write", Path::new(&arguments[2]));
    keep_all!(writes, folder: u32 i32 u64 i64 u128 i128);
    Ok(())
}
