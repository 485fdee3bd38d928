//! Prints the Merkle root of a file, by the many-lane BLAKE2b of blake2b_simd: what bench/root compares `sia-v1 root` with.

use blake2b_simd::{Params, many::{HashManyJob, hash_many}};

const HASH: usize = 32;
/// The size of a segment, and of a pair of hashes.
const PART: usize = 64;
/// How many parts are hashed in one call: so many that the processor's cache holds them.
const BATCH: usize = 256;

/// The hashes of the parts, each behind the prefix byte.
fn hash_parts(prefix: u8, parts: &[u8]) -> Vec<u8> {
    let mut params = Params::new();
    params.hash_length(HASH);
    let mut hashes = Vec::with_capacity(parts.len() / 2 + HASH);
    let mut messages = Vec::with_capacity(BATCH * (1 + PART));
    for batch in parts.chunks(BATCH * PART) {
        messages.clear();
        for part in batch.chunks(PART) {
            messages.push(prefix);
            messages.extend_from_slice(part);
        }
        let mut jobs: Vec<_> = messages.chunks(1 + PART).map(|message| HashManyJob::new(&params, message)).collect();
        hash_many(&mut jobs);
        for job in &jobs {
            hashes.extend_from_slice(job.to_hash().as_bytes());
        }
    }
    hashes
}

fn main() {
    let path = std::env::args_os().nth(1).expect("a file's name");
    let content = std::fs::read(path).expect("a file that can be read");
    let mut hashes = hash_parts(0, &content);
    while hashes.len() > HASH {
        // a hash with no neighbour goes up as it is
        let paired = hashes.len() / PART * PART;
        let mut above = hash_parts(1, &hashes[..paired]);
        above.extend_from_slice(&hashes[paired..]);
        hashes = above;
    }
    println!("{}", hashes.iter().map(|byte| format!("{byte:02x}")).collect::<String>());
}
