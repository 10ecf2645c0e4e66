//! The tables of vectors/instances: hard ones for gap, each with a booking that no rule takes, or with none.
use crate::calls::Lent;
use std::path::Path;

pub struct Instance {
    pub name: String,
    /// The signature and the table with all its rules.
    pub lent: Lent,
    /// Empty where rules take every booking.
    pub gap: Vec<u16>,
}

/// Those whose rules are all entered, by name; of the others the name and the number of the first refusal.
pub fn instances() -> (Vec<Instance>, Vec<(String, u16)>) {
    let folder = concat!(env!("CARGO_MANIFEST_DIR"), "/../vectors/instances");
    let mut files: Vec<_> = std::fs::read_dir(folder).expect("vectors/instances").map(|f| f.unwrap().path()).collect();
    files.retain(|f| f.extension().is_some_and(|e| e == "txt"));
    files.sort();
    let (mut all, mut refused) = (vec![], vec![]);
    for file in files {
        match read(&file) {
            Ok(instance) => all.push(instance),
            Err(n) => refused.push((name(&file), n)),
        }
    }
    (all, refused)
}

fn name(file: &Path) -> String {
    file.file_stem().unwrap().to_str().unwrap().into()
}

fn read(file: &Path) -> Result<Instance, u16> {
    let text = reference::instance::Instance::read(&std::fs::read_to_string(file).unwrap());
    let mut lent = Lent::empty(&text.signature);
    for (number, _, pattern) in text.rules {
        (lent.number, lent.pattern) = (number, pattern);
        match lent.make("enter") {
            0 => {}
            n => return Err(n),
        }
    }
    Ok(Instance { name: name(file), lent, gap: text.gap })
}
