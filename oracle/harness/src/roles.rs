//! Roles, request 2026-07 of document 02: what only the owner may do, and what an operator cannot tell apart.

use crate::angles::twin;
use crate::finders::{find_ours, subset};
use crate::flows::by_chance;
use crate::jobs::{Flow, Job, records};
use crate::ours::{self, Answer, OPERATOR, OWNER, ROLES, WORK_BYTES};
use crate::random::Random;
use crate::tally::{Tally, hex};

/// What stands in every buffer before a call.
const PAINT: u8 = 0xA5;
const NOT_THE_OWNER: Answer = Answer::Refused(24, 0, 0);
const CALLS: [&str; 4] = ["finder", "verifier", "lists added", "set edited"];

/// What a call leaves, whole: its code, the work buffer and the result buffer.
type Left = (Answer, Vec<u8>, Vec<u8>);

/// Reading angles out and writing them, by each operator: 24, and every byte of the buffer as it was. Half of the files are cut, and half of
/// the lists. Writing without angles, by any role: the job's bytes less those.
pub fn compare_written(tally: &mut Tally, job: &Job, random: &mut Random) {
    let file = job.bytes();
    let parts = records(&file).expect("a job's records");
    let whole = [1, 2, 3, 4, 5].map(|at| parts[at].1);
    let (n, mode) = (job.n, job.mode.into());
    let lists = whole.map(|list| some_of(list, random));
    let read = some_of(&file, random);
    let room = random.below(2 * file.len());
    for &role in ROLES.iter().filter(|role| **role != OWNER) {
        let mut refused = |call: &str, by: &mut dyn FnMut(&mut [u8]) -> Answer| {
            let mut out = vec![PAINT; room];
            let answer = by(&mut out);
            let same = answer == NOT_THE_OWNER && out.iter().all(|&byte| byte == PAINT);
            let detail = || format!("role {role}, file {} lists {lists:?}: {answer:?}, {}", hex(read), hex(&out));
            tally.add(&format!("roles, angles {call} by an operator"), &label(answer), same, detail);
        };
        refused("read out", &mut |out| ours::read_angles(role, read, out));
        refused("written", &mut |out| ours::write_job_angles(role, n, mode, lists, out));
    }
    let [edges, inputs, outputs, measured, _] = whole;
    let (role, planes, mut out) = (tally.role(), Job { angles: None, ..job.clone() }.bytes(), vec![PAINT; file.len()]);
    let answer = ours::write_job(role, n, mode, [edges, inputs, outputs, measured], &mut out);
    let same = answer == Answer::Value(planes.len()) && out.starts_with(&planes) && out[planes.len()..].iter().all(|&byte| byte == PAINT);
    tally.add("roles, a job written without angles, by turns", &label(answer), same, || format!("role {role}, file {}: {answer:?}", hex(&planes)));
}

/// The job and its twin, each with the same flow behind it: the finder, the verifier, adding lists and editing a set leave an operator the
/// same for both, to the last byte, and what they leave the owner.
pub fn compare_twins(tally: &mut Tally, job: &Job, random: &mut Random) {
    let twin = twin(job, random);
    let flow = some_flow(job, random);
    let entry = some_entry(job.n, random);
    // in one of four cases the result may be too long
    let most = longest(job.n);
    let room = if random.chance(1, 4) { random.below(most) } else { most + 1 + random.below(8) };
    let operator = if random.chance(1, 2) { OPERATOR } else { random.pick(&ROLES[1..]) };
    for call in CALLS {
        let [mine, other, owners] = [(operator, job), (operator, &twin), (OWNER, job)].map(|(role, job)| left(call, role, job, &flow, &entry, room));
        let detail = || {
            let [one, two] = [job, &twin].map(|job| hex(&job.bytes()));
            format!("role {operator}, {one} and {two}, flow {} entry {entry:?}: {mine:?} and {other:?}, to the owner {owners:?}", hex(&flow))
        };
        tally.add(&format!("roles, twins by angles, {call}"), &label(mine.0), mine == other && mine == owners, detail);
    }
}

fn label(answer: Answer) -> String {
    match answer {
        Answer::Value(_) => "answer".to_string(),
        Answer::Refused(number, ..) => number.to_string(),
    }
}

/// All bytes, or in half of the cases only the first ones.
fn some_of<'a>(bytes: &'a [u8], random: &mut Random) -> &'a [u8] {
    if random.chance(1, 2) { bytes } else { &bytes[..random.below(bytes.len() + 1)] }
}

/// Found, or made by chance; in half of the cases with its signal lists, some of them with a wrong bit.
fn some_flow(job: &Job, random: &mut Random) -> Vec<u8> {
    let found = find_ours(OWNER, &job.bytes()).ok().filter(|bytes| Flow::read(bytes, job.n).is_some());
    let flow = found.filter(|_| random.chance(3, 4)).unwrap_or_else(|| by_chance(job, random).bytes());
    let mut out = vec![0; longest(job.n)];
    let Answer::Value(count) = ours::add_signals(OWNER, &[job.bytes(), flow.clone()].concat(), &mut out) else { return flow };
    if random.chance(1, 2) {
        return flow;
    }
    out[count - 1] ^= u8::from(random.chance(1, 4));
    out[..count].to_vec()
}

/// An entry for editing, mostly of few members.
fn some_entry(n: usize, random: &mut Random) -> Vec<u8> {
    if n == 0 {
        return Vec::new();
    }
    let members = subset(n.min(60), (random.next() & random.next()) as usize);
    [vec![random.below(n) as u8, members.len() as u8], members].concat()
}

/// No flow file of n nodes is longer, its signal lists included.
fn longest(n: usize) -> usize {
    4 * 6 + 2 * n + n * (n + 2) + 2 * n * n.div_ceil(8)
}

fn left(call: &str, role: u64, job: &Job, flow: &[u8], entry: &[u8], room: usize) -> Left {
    let (mut work, mut out) = (vec![PAINT; WORK_BYTES], vec![PAINT; room]);
    let both = [&job.bytes(), flow].concat();
    let answer = match call {
        "finder" => ours::find(role, &job.bytes(), &mut work, &mut out),
        "verifier" => ours::verify(role, &both, &mut out),
        "lists added" => ours::add_signals(role, &both, &mut out),
        _ => ours::edit_set(role, &both, entry, &mut out),
    };
    (answer, work, out)
}
