//! Document 02, C-15: the packed table of a graph, by a packer of its own.

use crate::graph::Graph;
use crate::random::Random;

/// "Each row becomes ceil(n / 64) numbers of 64 bits".
pub fn row_numbers(n: usize) -> usize {
    n.div_ceil(64)
}

/// "Vertex v at bit v mod 64 (weight 2 to that power) of number v div 64."
pub fn pack(graph: &Graph) -> Vec<u64> {
    let (n, row) = (graph.n, row_numbers(graph.n));
    let mut numbers = vec![0; n * row];
    for u in 0..n {
        for v in (0..n).filter(|&v| graph.joined(u, v)) {
            numbers[u * row + v / 64] += 2u64.pow(v as u32 % 64);
        }
    }
    numbers
}

/// Where the bit of place v in the row of u stands: its number and its place in that. A row's last places may be no
/// vertex's.
fn place_of(n: usize, u: usize, v: usize) -> (usize, usize) {
    (u * row_numbers(n) + v / 64, v % 64)
}

/// The bit of place v in the row of u.
pub fn bit(numbers: &[u64], n: usize, u: usize, v: usize) -> bool {
    let (number, place) = place_of(n, u, v);
    numbers[number] >> place & 1 == 1
}

/// Sets it.
pub fn put(numbers: &mut [u64], n: usize, u: usize, v: usize, bit: bool) {
    let (number, place) = place_of(n, u, v);
    numbers[number] = numbers[number] & !(1 << place) | u64::from(bit) << place;
}

/// Makes it the other one.
pub fn turn(numbers: &mut [u64], n: usize, u: usize, v: usize) {
    let (number, place) = place_of(n, u, v);
    numbers[number] ^= 1 << place;
}

/// The graph whose packed table this is; of a table with faults, the bits of its vertices.
pub fn graph(numbers: &[u64], n: usize) -> Graph {
    let bytes = (0..n).flat_map(|u| (0..n).map(move |v| bit(numbers, n, u, v).into()));
    Graph { n, table: bytes.collect() }
}

/// A place of a row that is no vertex's; none where n is a multiple of 64.
pub fn stray_place(random: &mut Random, n: usize) -> Option<usize> {
    let places = 64 * row_numbers(n);
    (n < places).then(|| random.between(n, places - 1))
}
