//! Cuts a file into pieces of which any k of n give it back, as Rust would: what bench/pieces compares `cut_pieces` and
//! `join_pieces` of sia_bench with.
//!
//! `pieces FILE K N TIMES LAST` does so as many times from memory, joins the last K pieces as often, writes the last piece to LAST,
//! and prints the nanoseconds of both and how many pieces were made. Byte t of piece j is the value at j of the polynomial whose
//! coefficients are the k bytes of group t, by Horner's rule with a table of 256 products by j.

use std::time::Instant;

/// x^8 + x^4 + x^3 + x^2 + 1, without its first term.
const POLYNOMIAL: u8 = 0x1d;

fn product(mut a: u8, mut b: u8) -> u8 {
    let mut sum = 0;
    while b > 0 {
        if b & 1 == 1 {
            sum ^= a;
        }
        let carried = a & 0x80 != 0;
        a <<= 1;
        if carried {
            a ^= POLYNOMIAL;
        }
        b >>= 1;
    }
    sum
}

/// The products of each byte by one factor.
fn products(factor: u8) -> [u8; 256] {
    std::array::from_fn(|byte| product(byte as u8, factor))
}

/// The piece at a place.
fn piece(bytes: &[u8], k: usize, place: u8) -> Vec<u8> {
    let table = products(place);
    let horner = |group: &[u8]| group.iter().rev().fold(0, |sum, &byte| table[sum as usize] ^ byte);
    bytes.chunks(k).map(horner).collect()
}

fn inverse(of: u8) -> u8 {
    (1..=255).find(|&other| product(of, other) == 1).expect("a byte that isn't 0")
}

/// The inverse of the matrix of powers of the places, by rows.
fn inverse_matrix(places: &[u8]) -> Vec<Vec<u8>> {
    let k = places.len();
    let mut rows: Vec<Vec<u8>> = places
        .iter()
        .enumerate()
        .map(|(row, &place)| {
            let powers = std::iter::successors(Some(1), |&power| Some(product(power, place)));
            let mut both: Vec<u8> = powers.take(k).collect();
            both.extend((0..k).map(|column| u8::from(column == row)));
            both
        })
        .collect();
    for column in 0..k {
        let pivot = (column..k).find(|&row| rows[row][column] != 0).expect("a regular matrix");
        rows.swap(column, pivot);
        let factor = inverse(rows[column][column]);
        rows[column].iter_mut().for_each(|entry| *entry = product(*entry, factor));
        let chosen = rows[column].clone();
        for row in (0..k).filter(|&row| row != column) {
            let factor = rows[row][column];
            rows[row].iter_mut().zip(&chosen).for_each(|(entry, &other)| *entry ^= product(other, factor));
        }
    }
    rows.into_iter().map(|row| row[k..].to_vec()).collect()
}

/// The bytes that the pieces at these places stand for.
fn join(pieces: &[Vec<u8>], places: &[u8], length: usize) -> Vec<u8> {
    let k = places.len();
    let tables: Vec<Vec<[u8; 256]>> = inverse_matrix(places).iter().map(|row| row.iter().map(|&factor| products(factor)).collect()).collect();
    let mut bytes = vec![0; pieces[0].len() * k];
    for (group, out) in bytes.chunks_mut(k).enumerate() {
        for (coefficient, row) in out.iter_mut().zip(&tables) {
            *coefficient = row.iter().zip(pieces).fold(0, |sum, (table, piece)| sum ^ table[piece[group] as usize]);
        }
    }
    bytes.truncate(length);
    bytes
}

fn main() {
    let words: Vec<String> = std::env::args().skip(1).collect();
    let [file, k, n, times, last] = words.as_slice() else { panic!("usage: pieces FILE K N TIMES LAST") };
    let (k, n, times): (usize, u8, u32) = (k.parse().expect("K"), n.parse().expect("N"), times.parse().expect("TIMES"));
    let bytes = std::fs::read(file).expect("a file that can be read");
    let (mut cut, mut joined, mut count, mut pieces) = (0, 0, 0, Vec::new());
    let places: Vec<u8> = (n - k as u8..n).collect();
    for _ in 0..times {
        let start = Instant::now();
        pieces = (0..n).map(|place| piece(&bytes, k, place)).collect();
        cut += start.elapsed().as_nanos();
        count += pieces.len();
        let start = Instant::now();
        let whole = join(&pieces[n as usize - k..], &places, bytes.len());
        joined += start.elapsed().as_nanos();
        assert!(whole == bytes, "the pieces don't come back");
    }
    std::fs::write(last, pieces.last().expect("a piece")).expect("a file that can be written");
    println!("cut {cut}\njoin {joined}\npieces {count}");
}
