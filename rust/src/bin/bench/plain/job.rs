//! The reader of job files.

use super::turning::by_ones;
use super::{admit_before_vectors, admit_responses, admit_sequential, admit_vectors, code};
use fontarelga::{Network, SEQUENTIAL};

/// Where the second entry has its kind.
const VECTORS_KIND: usize = 14;

/// May the entry at this place have this kind?
fn right_kind(entry: usize, kind: u8) -> bool {
    usize::from(kind) == entry + 1 || entry == 1 && u64::from(kind) == SEQUENTIAL
}

/// An entry's body, if the entry has a kind of its place and the body begins at `place`.
fn body(file: &[u8], entry: usize, place: usize) -> Option<&[u8]> {
    let fields = file.get(5 + 9 * entry..14 + 9 * entry)?;
    let offset = u32::from_le_bytes(fields[1..5].try_into().ok()?) as usize;
    let length = u32::from_le_bytes(fields[5..9].try_into().ok()?) as usize;
    if !right_kind(entry, fields[0]) || offset != place {
        return None;
    }
    file.get(offset..offset + length)
}

/// The bodies of a file of right layout.
fn bodies(file: &[u8]) -> Option<Vec<&[u8]>> {
    let count = usize::from(*file.get(4)?);
    if file.len() > 2048 || !(2..=3).contains(&count) {
        return None;
    }
    let mut place = 5 + 9 * count;
    let mut bodies = Vec::with_capacity(count);
    for entry in 0..count {
        bodies.push(body(file, entry, place)?);
        place += bodies[entry].len();
    }
    (place == file.len()).then_some(bodies)
}

fn words(body: &[u8]) -> Result<Vec<u64>, u64> {
    if !body.len().is_multiple_of(8) {
        return Err(3);
    }
    Ok(body.chunks_exact(8).map(|word| u64::from_le_bytes(word.try_into().expect("8 bytes"))).collect())
}

/// The number of vectors and the words of the second body, which are sequential ones if they are of that kind.
fn stored(kind: u64, body: &[u8]) -> Result<(u64, Vec<u64>), u64> {
    if kind != SEQUENTIAL {
        return words(body).map(|words| (words.len() as u64, words));
    }
    let (count, rest) = body.split_first().ok_or(3u64)?;
    words(rest).map(|words| (u64::from(*count), words))
}

fn read(file: &[u8], vectors: &mut [u64], responses: &mut [u64], job: &mut [u64]) -> Result<(), u64> {
    if !file.starts_with(b"BSJ3") {
        return Err(1);
    }
    let bodies = bodies(file).ok_or(2u64)?;
    let [n, k, level, gate] = *bodies[0] else { return Err(3) };
    let [n, k, level, gate] = [n, k, level, gate].map(u64::from);
    let kind = u64::from(file[VECTORS_KIND]);
    let (count, driven) = stored(kind, bodies[1])?;
    let answered = bodies.get(2).map_or(Ok(vec![]), |body| words(body))?;
    admit_before_vectors(Network::new(n).with_level(level).with_gate(gate), k)?;
    match kind {
        SEQUENTIAL => admit_sequential(n, count, &driven)?,
        _ => admit_vectors(n, &driven)?,
    }
    if bodies.len() == 3 {
        admit_responses(n, count as usize, &answered)?;
    }
    if vectors.len() < count as usize || responses.len() < answered.len() {
        return Err(12);
    }
    match kind {
        SEQUENTIAL => by_ones(&driven, &mut vectors[..count as usize]),
        _ => vectors[..driven.len()].copy_from_slice(&driven),
    }
    responses[..answered.len()].copy_from_slice(&answered);
    job.copy_from_slice(&[n, level, gate, k, kind, count, answered.len() as u64]);
    Ok(())
}

/// The call.
pub fn read_job(file: &[u8], vectors: &mut [u64], responses: &mut [u64], job: &mut [u64]) -> u64 {
    code(read(file, vectors, responses, job))
}
