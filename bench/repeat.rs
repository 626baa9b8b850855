//! Our side alone, again and again on the same bytes: for tools that count instructions. An operator calls, but where angles are written or read out.

use crate::families::FAMILIES;
use harness::jobs::{Flow, SETS, records};
use harness::ours::{self, Answer, FLOW_BYTES, OPERATOR, OUT_BYTES, OWNER, WORK_BYTES};
use std::hint::black_box;
use std::path::Path;
use std::{fs, io};

/// The answer of the last of so many calls of the finder on a job file.
pub fn find(file: &[u8], repeats: usize) -> Option<Answer> {
    let (mut work, mut out) = (vec![0; WORK_BYTES], vec![0; OUT_BYTES]);
    (0..repeats).map(|_| ours::find(OPERATOR, black_box(file), &mut work, &mut out)).last()
}

/// The same of the verifier, on a job file with a flow file behind it.
pub fn verify(file: &[u8], repeats: usize) -> Option<Answer> {
    let mut out = vec![0; OUT_BYTES];
    (0..repeats).map(|_| ours::verify(OPERATOR, black_box(file), &mut out)).last()
}

/// The same of adding signal lists.
pub fn add_signals(file: &[u8], repeats: usize) -> Option<Answer> {
    let mut out = vec![0; FLOW_BYTES];
    (0..repeats).map(|_| ours::add_signals(OPERATOR, black_box(file), &mut out)).last()
}

/// The same of editing a set: the last entry is put in its own place again.
pub fn edit_set(file: &[u8], repeats: usize) -> Option<Answer> {
    let records = records(file)?;
    let (_, mut entry) = *records.iter().find(|(kind, _)| *kind == SETS)?;
    while let [_, count, rest @ ..] = entry {
        let behind = rest.get(usize::from(*count)..)?;
        if behind.is_empty() {
            break;
        }
        entry = behind;
    }
    let mut out = vec![0; FLOW_BYTES];
    (0..repeats).map(|_| ours::edit_set(OPERATOR, black_box(file), black_box(entry), &mut out)).last()
}

/// The same of the job writer, on the lists of a job file: edges, inputs and outputs from the last to the first, the greater end first; the angles
/// where it has some.
pub fn write_job(file: &[u8], repeats: usize) -> Option<Answer> {
    let parts = records(file)?;
    let [(_, opening), sorted @ .., (_, measurements)] = parts.get(..5)? else { return None };
    let [edges, inputs, outputs] = sorted else { return None };
    let [edges, inputs, outputs] = [edges, inputs, outputs].map(|(_, list)| list.iter().rev().copied().collect::<Vec<u8>>());
    let (n, mode) = (opening[0].into(), opening[1].into());
    let mut out = vec![0; OUT_BYTES];
    let mut write = || match parts.get(5) {
        Some((_, angles)) => ours::write_job_angles(OWNER, n, mode, black_box([&edges, &inputs, &outputs, measurements, angles]), &mut out),
        None => ours::write_job(OPERATOR, n, mode, black_box([&edges, &inputs, &outputs, measurements]), &mut out),
    };
    let last = (0..repeats).map(|_| write()).last()?;
    assert_eq!(&out[..file.len()], file, "the file is not written again");
    Some(last)
}

/// The same of reading angles out of a job file.
pub fn read_angles(file: &[u8], repeats: usize) -> Option<Answer> {
    let mut out = vec![0; OUT_BYTES];
    (0..repeats).map(|_| ours::read_angles(OWNER, black_box(file), &mut out)).last()
}

/// The first job of each family at 16 and at 128 nodes; behind it, in a file of its own, the flow that is found, and in a third that flow with its
/// signal lists.
pub fn put_files(folder: &Path) -> io::Result<()> {
    let (mut work, mut out) = (vec![0; WORK_BYTES], vec![0; FLOW_BYTES]);
    for (family, n) in FAMILIES.iter().flat_map(|family| [(family, 16), (family, 128)]) {
        let name = format!("{n} {}", family.name);
        let job = (family.jobs)(n)[0].bytes();
        fs::write(folder.join(format!("{name}.job")), &job)?;
        let Answer::Value(count) = ours::find(OPERATOR, &job, &mut work, &mut out) else { continue };
        if Flow::read(&out[..count], n).is_none() {
            continue;
        }
        let file = [&job[..], &out[..count]].concat();
        fs::write(folder.join(format!("{name}.flow")), &file)?;
        let Answer::Value(count) = ours::add_signals(OPERATOR, &file, &mut out) else { continue };
        fs::write(folder.join(format!("{name}.lists")), [&job[..], &out[..count]].concat())?;
    }
    Ok(())
}
