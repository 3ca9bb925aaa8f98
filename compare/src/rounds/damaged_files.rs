//! Files damaged at random, and files cut off at every byte.

use crate::damage::damaged;
use crate::desk::Desk;
use crate::difference::Outcome;
use crate::file;
use crate::segments::BY_TRYING;
use crate::traces::readings::readings;
use crate::traces::small::small_trace;

/// How many small files are cut off at every byte.
const CUT_FILES: usize = 100;

pub fn compare(desk: &mut Desk, files: usize) -> Outcome {
    for _ in 0..files {
        let trace = small_trace(&mut desk.random);
        let file = damaged(&trace, &mut desk.random);
        desk.tally.add("damaged files", 1);
        desk.file(&file, BY_TRYING)?;
    }
    for _ in 0..CUT_FILES {
        let trace = small_trace(&mut desk.random);
        every_cut(desk, &file::bytes(&trace))?;
        let readings = readings(&trace.ranges, &mut desk.random);
        every_cut(desk, &file::bytes_with(&trace, &readings))?;
        let file = damaged(&trace, &mut desk.random);
        every_cut(desk, &file)?;
    }
    Ok(())
}

fn every_cut(desk: &mut Desk, file: &[u8]) -> Outcome {
    for end in 0..file.len() {
        desk.file(&file[..end], BY_TRYING)?;
        desk.tally.add("files cut off", 1);
    }
    Ok(())
}
