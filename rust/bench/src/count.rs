//! What `count/count` needs: the case files that its driver reads, and the tuned model alone.
use crate::case::Case;
use crate::scene::LONGEST;
use crate::{calls, steps};
use std::{fs, io, path::Path};

fn cases() -> impl Iterator<Item = &'static Case> {
    steps::CASES.iter().chain(&calls::CASES)
}

/// Writes a file for every case that is a run.
pub fn write_cases(folder: &str) -> io::Result<()> {
    fs::create_dir_all(folder)?;
    for case in cases() {
        let Some(scene) = case.scene() else { continue };
        let name = format!("{}.case", case.name);
        fs::write(Path::new(folder).join(name), scene.file())?;
    }
    Ok(())
}

/// Runs so many entries of a case on the tuned model. All else it does is the same for any number.
pub fn run_tuned(name: &str, entries: &str) -> Option<()> {
    let count: usize = entries.parse().ok().filter(|count| *count <= LONGEST)?;
    let scene = cases().find(|case| case.name == name)?.scene()?;
    let schedule = scene.schedule(LONGEST);
    let mut answers = vec![0; LONGEST];
    let mut machine = scene.both().tuned;
    machine.run(schedule.get(..2 * count)?, &mut answers).ok()
}
