//! The reader of the records that a page writes: document 02, C-14.

use isolated::{fill_degrees, pack, page, record_entries, records, table_numbers, work_entries};
use isolated::{Graph, Group, Groups, Kind, Notion, Room, Settings, Stop, VERTICES};
use std::iter::FusedIterator;

fn group(vertices: &[u16], outgoing_edges: u32) -> Group {
    Group { vertices: vertices.to_vec(), outgoing_edges }
}

#[test]
fn both_halves_of_the_outgoing_edges_are_read() {
    for (upper, lower, outgoing_edges) in [
        (0, 0, 0),
        (0, 1, 1),
        (0, 65_535, 65_535),
        (1, 0, 65_536),
        (1, 65_535, 131_071),
        (2, 769, 131_841),
        (3, 65_024, 261_632),
        (4, 0, 262_144),
        (u16::MAX, u16::MAX, u32::MAX),
    ] {
        assert!(records(&[1, upper, lower, 7]).eq([group(&[7], outgoing_edges)]), "{upper} and {lower}");
    }
}

#[test]
fn records_are_read_one_after_another() {
    let output = [2, 0, 5, 9, 8, 1, 1, 0, 3, 3, 0, 0, 0, 1, 2];
    let groups = [group(&[9, 8], 5), group(&[3], 65_536), group(&[0, 1, 2], 0)];
    assert!(records(&output).eq(groups.clone()));
    let mut begun = records(&output);
    assert_eq!(begun.next().as_ref(), groups.first());
    assert!(begun.clone().eq(groups[1..].iter().cloned()));
    assert!(begun.eq(groups[1..].iter().cloned()));
}

/// What is cut after any of its entries gives the groups of its whole records, and no more after that.
#[test]
fn entries_that_break_off_end_the_groups() {
    fn stays_over(mut groups: impl FusedIterator<Item = Group>) {
        assert_eq!(groups.next(), None);
        assert_eq!(groups.next(), None);
    }
    let output = [2, 0, 5, 9, 8, 1, 1, 0, 3];
    let whole = |cut: usize| usize::from(cut >= 5) + usize::from(cut >= 9);
    for cut in 0..=output.len() {
        let mut groups = records(&output[..cut]);
        assert_eq!(groups.by_ref().count(), whole(cut), "{cut} entries");
        stays_over(groups);
    }
}

/// What is left are the entries after those of the groups that were read, also when no group is left.
#[test]
fn the_entries_that_are_not_read() {
    let output = [2, 0, 5, 9, 8, 1, 1, 0, 3];
    for cut in 0..=output.len() {
        let mut groups = records(&output[..cut]);
        let mut read = 0;
        assert_eq!(groups.rest(), &output[..cut]);
        while let Some(group) = groups.next() {
            read += record_entries(group.vertices.len());
            assert_eq!(groups.rest(), &output[read..cut], "{cut} entries");
        }
        assert_eq!(groups.rest(), &output[read..cut], "{cut} entries");
        assert_eq!(groups.rest().is_empty(), [0, 5, 9].contains(&cut), "{cut} entries");
    }
    let mut ended = records(&[1, 0, 0, 7, 0, 0, 0, 0]);
    assert_eq!(ended.by_ref().count(), 1);
    assert_eq!(ended.rest(), [0; 4]);
    let outlives = |entries| records(entries).rest();
    assert_eq!(outlives(&output), output);
}

#[test]
fn groups_are_ordered_by_vertices_and_then_by_outgoing_edges() {
    let in_order = [group(&[0], 9), group(&[0, 1], 7), group(&[0, 1], 8), group(&[0, 1, 2], 0), group(&[1, 0], 0)];
    assert!(in_order.is_sorted_by(|a, b| a < b));
    let mut sorted = in_order.clone();
    sorted.reverse();
    sorted.sort();
    assert_eq!(sorted, in_order);
}

#[test]
fn entries_that_are_no_record_end_the_groups() {
    let largest = vec![u16::MAX; record_entries(65_535)];
    assert!(records(&largest).eq([group(&largest[3..], u32::MAX)]));
    for none in [&[][..], &[0], &[0; 3], &[0; 4096], &[0, 0, 0, 1, 0, 0, 7], &[u16::MAX], &largest[1..]] {
        assert_eq!(records(none).next(), None, "{} entries", none.len());
    }
    assert!(records(&[1, 0, 0, 7, 0, 0, 0, 0]).eq([group(&[7], 0)]));
}

/// So many entries hold the group, and one less does not. What is not used stays as it was.
#[test]
fn the_entries_of_a_record() {
    assert_eq!([0, 1, VERTICES, usize::MAX - 3].map(record_entries), [3, 4, 1027, usize::MAX]);
    assert_eq!(record_entries(usize::MAX), usize::MAX);
    let mut triangle = Graph::new(4).unwrap();
    for (u, v) in [(0, 1), (0, 2), (1, 2), (2, 3)] {
        triangle.join(u, v).unwrap();
    }
    let settings = Settings::new(Notion::Max, Kind::MaximalIsolated, 2);
    let asked = |entries: usize| {
        let before: Vec<u16> = (40_000..).take(entries).collect();
        let (mut position, mut output, mut work) = ([0; 4], before.clone(), vec![0; work_entries(4)]);
        let (table, degrees) = (triangle.table(), triangle.degrees());
        let done = page(table, degrees, &mut position, &mut output, &mut work, 4, settings, 1000).unwrap();
        assert_eq!(output[done.used..], before[done.used..], "{entries} entries");
        (done.stop, records(&output[..done.used]).collect::<Vec<_>>())
    };
    let single = group(&[3], 1);
    assert_eq!(asked(record_entries(1) - 1), (Stop::Full { wanted: 4 }, vec![]));
    assert_eq!(asked(record_entries(1)), (Stop::Full { wanted: 6 }, vec![single.clone()]));
    assert_eq!(asked(record_entries(1) + record_entries(3) - 1), (Stop::Full { wanted: 6 }, vec![single.clone()]));
    let whole = vec![single, group(&[0, 1, 2], 1)];
    assert_eq!(asked(record_entries(1) + record_entries(3)), (Stop::Finished, whole));
}

/// With `wanted` entries the walk moves on. With fewer it makes no step, until more are lent.
#[test]
fn what_a_full_page_wants() {
    let (table, degrees) = ([0b110, 0b101, 0b011], [2, 2, 2]);
    let settings = Settings::new(Notion::Max, Kind::MaximalIsolated, 1);
    let (mut position, mut work) = ([0; 3], [0; 24]);
    let mut asked = |entries: usize| {
        let mut output = vec![0; entries];
        let done = page(&table, &degrees, &mut position, &mut output, &mut work, 3, settings, 1000).unwrap();
        (done.stop, done.steps, records(&output[..done.used]).collect::<Vec<_>>())
    };
    let full = Stop::Full { wanted: 6 };
    assert_eq!(asked(4), (full, 3, vec![]));
    for entries in [0, 4, 5] {
        assert_eq!(asked(entries), (full, 0, vec![]));
    }
    assert_eq!(asked(6), (Stop::Finished, 7, vec![group(&[0, 1, 2], 0)]));
}

/// The edges between these vertices and others, counted in the byte table.
fn counted(bytes: &[u8], n: usize, vertices: &[u16]) -> u32 {
    let mut outside = vec![1; n];
    for &vertex in vertices {
        outside[usize::from(vertex)] = 0;
    }
    let rows = vertices.iter().map(|&vertex| &bytes[usize::from(vertex) * n..][..n]);
    rows.map(|row| row.iter().zip(&outside).map(|(&byte, out)| u32::from(byte) * out).sum::<u32>()).sum()
}

/// Vertices that are pairwise joined, and further ones that are joined to all of these and not to one another. Each
/// group is one of the latter and all the former; so many of the groups are read.
#[test]
fn more_outgoing_edges_than_one_half_holds() {
    for (joined, further, read, outgoing_edges) in
        [(256, 256, 1, 65_280), (256, 257, 257, 65_536), (257, 257, 2, 65_792), (512, 512, 2, 261_632)]
    {
        let n = joined + further;
        let joins = |u: usize, v: usize| u != v && u.min(v) < joined;
        let bytes: Vec<u8> = (0..n * n).map(|at| u8::from(joins(at / n, at % n))).collect();
        let (mut table, mut degrees) = (vec![0; table_numbers(n)], vec![0; n]);
        pack(&bytes, &mut table, n).unwrap();
        fill_degrees(&table, &mut degrees, n).unwrap();
        let settings = Settings::new(Notion::Min, Kind::MaximalIsolated, 1);

        let mut room = Room::with_output(n, 0);
        let groups = Groups::new(&table, &degrees, n, settings, &mut room).unwrap();
        let groups: Vec<Group> = groups.take(read).collect();
        assert_eq!(groups.len(), read);
        for (group, one) in groups.iter().zip(joined..) {
            let vertices = [one].into_iter().chain(0..joined);
            assert!(group.vertices.iter().copied().map(usize::from).eq(vertices));
            assert_eq!(group.outgoing_edges, outgoing_edges);
            assert_eq!(group.outgoing_edges, counted(&bytes, n, &group.vertices));
        }

        let (mut position, mut work) = (vec![0; n], vec![0; work_entries(n)]);
        let mut output = vec![0; read * record_entries(joined + 1)];
        let done = page(&table, &degrees, &mut position, &mut output, &mut work, n, settings, 1 << 20).unwrap();
        assert_eq!(done.used, output.len());
        assert!(records(&output).eq(groups));
    }
}
