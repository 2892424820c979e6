//! The iterator over rooms of several sizes.

use isolated::{page, row_numbers, set_query, table_numbers, work_entries};
use isolated::{Group, Groups, Kind, Notion, Refusal, Room, Settings, FACTOR, VERTICES};
use std::iter::FusedIterator;

/// The table of a ring of n vertices, each joined to the next, and its degrees; of less than three no two are joined.
fn ring(n: usize) -> (Vec<u64>, Vec<u16>) {
    let (mut table, mut degrees) = (vec![0; table_numbers(n)], vec![0; n]);
    if n >= 3 {
        for u in 0..n {
            let v = (u + 1) % n;
            table[u * row_numbers(n) + v / 64] |= 1 << (v % 64);
            table[v * row_numbers(n) + u / 64] |= 1 << (u % 64);
            degrees[u] = 2;
        }
    }
    (table, degrees)
}

fn all_groups(graph: &(Vec<u64>, Vec<u16>), n: usize, settings: Settings, room: &mut Room) -> (Vec<Group>, u64) {
    let mut groups = Groups::new(&graph.0, &graph.1, n, settings, room).unwrap();
    let list = groups.by_ref().collect();
    (list, groups.steps())
}

#[test]
fn a_small_room_lists_the_same_groups() {
    let graph = ring(9);
    for notion in Notion::ALL {
        for kind in Kind::ALL {
            let settings = Settings::new(notion, kind, 3);
            let expected = all_groups(&graph, 9, settings, &mut Room::new(9));
            let found = all_groups(&graph, 9, settings, &mut Room::with_output(9, 0));
            assert_eq!(found, expected, "{settings}");
            assert_eq!(found.0.len(), 9, "each edge of the ring is a group under {settings}");
        }
    }
}

#[test]
fn a_room_serves_several_listings() {
    let (table, degrees) = ring(5);
    let mut room = Room::new(5);
    let settings = Settings::new(Notion::Max, Kind::MaximalIsolated, 2);
    let mut begun = Groups::new(&table, &degrees, 5, settings, &mut room).unwrap();
    let pair = |u, v| Group { vertices: vec![u, v], outgoing_edges: 2 };
    assert_eq!(begun.next(), Some(pair(0, 1)));
    let again: Vec<Group> = Groups::new(&table, &degrees, 5, settings, &mut room).unwrap().collect();
    assert_eq!(again, [pair(0, 1), pair(0, 4), pair(1, 2), pair(2, 3), pair(3, 4)]);
    assert_eq!(Groups::new(&table, &degrees, 4, settings, &mut room).err(), Some(Refusal::TableLength));
}

/// In any order of sizes, and after a listing that was left in its middle.
#[test]
fn a_room_serves_every_smaller_graph() {
    let settings = Settings::new(Notion::Avg, Kind::MaximalIsolated, 2);
    for mut room in [Room::new(9), Room::with_output(9, 0)] {
        for n in [9, 3, 0, 7, 1, 4, 9] {
            let graph = ring(n);
            let expected = all_groups(&graph, n, settings, &mut Room::new(n));
            assert_eq!(all_groups(&graph, n, settings, &mut room), expected, "n {n}");
            Groups::new(&graph.0, &graph.1, n, settings, &mut room).unwrap().next();
        }
    }
}

/// More entries than memory has are no mistake that panics.
#[test]
fn a_room_of_any_output() {
    let settings = Settings::new(Notion::Avg, Kind::MaximalIsolated, 2);
    for n in [3, 1024, usize::MAX] {
        let mut room = Room::with_output(n, usize::MAX);
        assert_eq!(format!("{room:?}"), format!("Room {{ vertices: {}, output: 16777216, .. }}", n.min(1024)));
        assert_eq!(all_groups(&ring(3), 3, settings, &mut room), all_groups(&ring(3), 3, settings, &mut Room::new(3)));
    }
}

/// A larger graph is refused by 9, unless something that is tested before is wrong too.
#[test]
fn a_room_refuses_a_larger_graph() {
    let mut room = Room::new(4);
    let settings = Settings::new(Notion::Max, Kind::IsolatedMaximal, 2);
    let (table, degrees) = ring(5);
    let no_factor = Settings { c: 0, ..settings };
    assert_eq!(Groups::new(&table, &degrees, 5, settings, &mut room).err(), Some(Refusal::Length));
    assert_eq!(Groups::new(&table, &degrees, 5, no_factor, &mut room).err(), Some(Refusal::Factor));
    assert_eq!(Groups::new(&table, &degrees[1..], 5, no_factor, &mut room).err(), Some(Refusal::Degrees));
    assert_eq!(Groups::new(&[], &[], usize::MAX, settings, &mut room).err(), Some(Refusal::Vertices));
}

#[test]
fn the_largest_room() {
    assert_eq!(Room::new(9).vertices(), 9);
    assert_eq!(Room::new(VERTICES + 1).vertices(), VERTICES);
    let mut room = Room::new(usize::MAX);
    let settings = Settings::new(Notion::Max, Kind::IsolatedMaximal, 1);
    let most = (vec![0; table_numbers(VERTICES)], vec![0; VERTICES]);
    assert_eq!(all_groups(&most, VERTICES, settings, &mut room).0.len(), VERTICES);
    let over = (vec![0; table_numbers(VERTICES + 1)], vec![0; VERTICES + 1]);
    assert_eq!(Groups::new(&over.0, &over.1, VERTICES + 1, settings, &mut room).err(), Some(Refusal::Vertices));
}

#[test]
fn the_largest_factor() {
    let settings = |c: u32| Settings::new(Notion::Min, Kind::MaximalIsolated, c);
    assert_eq!(set_query(&[0], &[0], &[1], &mut [0; 8], 1, settings(FACTOR)), Ok(true));
    assert_eq!(set_query(&[0], &[0], &[1], &mut [0; 8], 1, settings(FACTOR + 1)), Err(Refusal::Factor));
}

#[test]
fn the_shortest_work_slice() {
    let settings = Settings::new(Notion::Min, Kind::MaximalIsolated, 1);
    let (table, degrees) = ring(3);
    let asked = |entries: usize| page(&table, &degrees, &mut [0; 3], &mut [], &mut vec![0; entries], 3, settings, 0);
    assert!(asked(work_entries(3)).is_ok());
    assert_eq!(asked(work_entries(3) - 1), Err(Refusal::Work));
    assert_eq!(work_entries(usize::MAX), usize::MAX);
}

#[test]
fn no_vertices_have_no_groups() {
    fn stays_over(mut groups: impl FusedIterator<Item = Group>) {
        assert_eq!(groups.next(), None);
        assert_eq!(groups.next(), None);
    }
    let mut room = Room::new(0);
    let settings = Settings::new(Notion::Min, Kind::IsolatedMaximal, 1);
    let groups = Groups::new(&[], &[], 0, settings, &mut room).unwrap();
    assert_eq!(groups.steps(), 0);
    stays_over(groups);
}

/// Each thread lists in a room of its own, over one table; a listing and its room may move to another thread.
#[test]
fn threads_share_a_table() {
    fn may_move<T: Send>() {}
    may_move::<Room>();
    may_move::<Groups>();
    let graph = ring(12);
    let settings = Settings::new(Notion::Max, Kind::MaximalIsolated, 2);
    let expected = all_groups(&graph, 12, settings, &mut Room::new(12));
    std::thread::scope(|scope| {
        let listing = || all_groups(&graph, 12, settings, &mut Room::new(12));
        let threads: Vec<_> = (0..4).map(|_| scope.spawn(listing)).collect();
        for thread in threads {
            assert_eq!(thread.join().unwrap(), expected);
        }
    });
}

#[test]
fn what_debug_shows() {
    let mut room = Room::with_output(3, 7);
    assert_eq!(format!("{room:?}"), "Room { vertices: 3, output: 7, .. }");
    let settings = Settings::new(Notion::Max, Kind::MaximalIsolated, 2);
    let (table, degrees) = ring(3);
    let groups = Groups::new(&table, &degrees, 3, settings, &mut room).unwrap();
    let shown = "Groups { n: 3, settings: Settings { notion: Max, kind: MaximalIsolated, c: 2 }, steps: 0, finished: false, .. }";
    assert_eq!(format!("{groups:?}"), shown);
}
