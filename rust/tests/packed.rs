//! Packing a byte table, and the graph that comes of it.

use isolated::{fill_degrees, join, pack, part, row_numbers, set_query, table_numbers, work_entries};
use isolated::{Graph, Kind, Notion, Refusal, Settings, VERTICES};

#[test]
fn the_numbers_of_a_table() {
    for (n, row) in [(0, 0), (1, 1), (63, 1), (64, 1), (65, 2), (128, 2), (129, 3), (VERTICES, 16)] {
        assert_eq!((row_numbers(n), table_numbers(n)), (row, n * row), "n {n}");
    }
    assert_eq!((row_numbers(usize::MAX), table_numbers(usize::MAX)), (1 << 58, usize::MAX));
}

/// The byte table of a circulant graph: vertices are joined where their distance on a ring is 1, 5 or 64.
fn circulant(n: usize) -> Vec<u8> {
    let joined = |u: usize, v: usize| [1, 5, 64].iter().any(|by| u != v && ((u + by) % n == v || (v + by) % n == u));
    (0..n * n).map(|at| joined(at / n, at % n).into()).collect()
}

/// What is packed is the table of the graph that is made by joining each pair, whatever the slice held before.
#[test]
fn a_packed_table_is_that_of_the_graph() {
    for n in [0, 1, 2, 63, 64, 65, 127, 128, 129, 191, 192, 193] {
        let bytes = circulant(n);
        let mut graph = Graph::new(n).unwrap();
        for at in (0..n * n).filter(|&at| bytes[at] == 1 && at / n < at % n) {
            assert_eq!(graph.join(at / n, at % n), Ok(true));
        }
        for before in [0, u64::MAX, 0x0123_4567_89ab_cdef] {
            let mut packed = vec![before; table_numbers(n)];
            assert_eq!(pack(&bytes, &mut packed, n), Ok(()));
            assert_eq!(packed, graph.table(), "n {n}");
        }
        let mut degrees = vec![7; n];
        assert_eq!(fill_degrees(graph.table(), &mut degrees, n), Ok(()));
        assert_eq!(degrees, graph.degrees(), "n {n}");
    }
}

/// Of several faults the one with the lowest number is told, and the slice is then as it was.
#[test]
fn byte_tables_that_are_refused() {
    let refused = |bytes: &[u8], numbers: usize, n: usize| {
        let mut packed = vec![9; numbers];
        let answer = pack(bytes, &mut packed, n);
        assert_eq!(packed, vec![9; numbers], "{bytes:?}");
        answer.unwrap_err()
    };
    assert_eq!(refused(&[], 0, VERTICES + 1), Refusal::Vertices);
    assert_eq!(refused(&[], 0, usize::MAX), Refusal::Vertices);
    for (bytes, numbers) in [(3, 2), (5, 2), (4, 1), (4, 3), (4, 4)] {
        assert_eq!(refused(&vec![2; bytes], numbers, 2), Refusal::TableLength, "{bytes} bytes, {numbers} numbers");
    }
    assert_eq!(refused(&[1, 2, 0, 0], 2, 2), Refusal::TableByte);
    assert_eq!(refused(&[0, 1, 0, 1], 2, 2), Refusal::Diagonal);
    assert_eq!(refused(&[0, 1, 0, 0], 2, 2), Refusal::Symmetry);
}

/// A bit past the last vertex is refused by every call that takes the table, before what is tested after it.
#[test]
fn stray_bits_are_refused() {
    let settings = Settings::new(Notion::Max, Kind::MaximalIsolated, 0);
    for place in 3..64 {
        let mut table = [0b110, 0b100 | 1 << place, 0b011];
        let (before, mut degrees) = (table, [7; 3]);
        assert_eq!(fill_degrees(&table, &mut degrees, 3), Err(Refusal::StrayBit), "{place}");
        assert_eq!(join(&mut table, &mut degrees, 3, 3, 3), Err(Refusal::StrayBit), "{place}");
        assert_eq!(part(&mut table, &mut degrees, 3, 0, 0), Err(Refusal::StrayBit), "{place}");
        let mut work = vec![0; work_entries(3)];
        assert_eq!(set_query(&table, &degrees, &[], &mut work, 3, settings), Err(Refusal::StrayBit), "{place}");
        assert_eq!((table, degrees), (before, [7; 3]), "{place}");
    }
}
