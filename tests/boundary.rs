// Calls every function of include/geznauri.h as a Rust program does, with no crates: each once accepted at least and once
// refused. tests/boundary.c has more cases of each; here it is the declarations that are tried. The tables are of the
// teaching warehouse, written with two numbers a node where all nodes are common, and all expected results are worked out by
// hand. A difference ends the program with a panic.
use std::mem::{offset_of, size_of};

#[repr(C)]
#[derive(Clone, Copy, Debug, PartialEq)]
struct Reply {
    number: u16,
    place: u16,
}

#[repr(C)]
#[derive(Clone, Copy, Debug, PartialEq)]
struct ImageReply {
    number: u16,
    place: u16,
    count: usize,
}

#[repr(C)]
#[derive(Clone, Copy, Debug, PartialEq)]
struct MadeReply {
    number: u16,
    place: u16,
    count: usize,
}

#[repr(C)]
#[derive(Clone, Copy, Debug, PartialEq)]
struct PageReply {
    number: u16,
    place: u16,
    count: usize,
    more: bool,
}

#[repr(C)]
#[derive(Clone, Copy, Debug, PartialEq)]
struct QuickReply {
    number: u16,
    place: u16,
    count: usize,
    more: bool,
    evaluations: usize,
}

#[repr(C)]
#[derive(Clone, Copy, Debug, PartialEq)]
struct ReadReply {
    number: u16,
    place: u16,
    count: usize,
    columns: u16,
}

#[repr(C)]
#[derive(Clone, Copy, Debug, PartialEq)]
struct IndexReply {
    number: u16,
    place: u16,
    next: usize,
    tags: usize,
}

#[repr(C)]
#[derive(Clone, Copy, Debug, PartialEq)]
struct Cursor {
    begun: u8,
    last: [u16; 3],
}

#[repr(C)]
#[derive(Clone, Copy, Debug)]
struct Part {
    start: *const u8,
    length: usize,
}

const _: () = assert!(size_of::<Reply>() == 4 && offset_of!(Reply, place) == 2);
const _: () = assert!(size_of::<ImageReply>() == 16 && offset_of!(ImageReply, place) == 2 && offset_of!(ImageReply, count) == 8);
const _: () = assert!(size_of::<MadeReply>() == 16 && offset_of!(MadeReply, place) == 2 && offset_of!(MadeReply, count) == 8);
const _: () = assert!(size_of::<PageReply>() == 24 && offset_of!(PageReply, count) == 8 && offset_of!(PageReply, more) == 16);
const _: () = assert!(size_of::<QuickReply>() == 32 && offset_of!(QuickReply, count) == 8 && offset_of!(QuickReply, more) == 16);
const _: () = assert!(offset_of!(QuickReply, place) == 2 && offset_of!(QuickReply, evaluations) == 24);
const _: () = assert!(size_of::<ReadReply>() == 24 && offset_of!(ReadReply, count) == 8 && offset_of!(ReadReply, columns) == 16);
const _: () = assert!(size_of::<IndexReply>() == 24 && offset_of!(IndexReply, next) == 8 && offset_of!(IndexReply, tags) == 16);
const _: () = assert!(size_of::<Cursor>() == 8 && offset_of!(Cursor, last) == 2);
const _: () = assert!(size_of::<Part>() == 16 && offset_of!(Part, length) == 8);

type Image = unsafe extern "C" fn(
    *const u16, usize, u16, *const u16, usize, u16, *const u16, usize, *const u8, usize, *mut u8, usize,
) -> ImageReply;

#[link(name = "terminal", kind = "static")]
extern "C" {
    fn gz_check_tree(tree: *const u16, tree_len: usize) -> Reply;
    fn gz_seen(tree: *const u16, tree_len: usize, party: u16, table: *mut u16, table_len: usize) -> MadeReply;
    fn gz_check_query(query: *const u16, query_len: usize, columns: u16) -> Reply;
    fn gz_forwards(
        tree: *const u16, tree_len: usize, party: u16, query: *const u16, query_len: usize, columns: u16, nodes: *const u16,
        nodes_len: usize, from: *const u8, from_len: usize, to: *mut u8, to_len: usize,
    ) -> ImageReply;
    fn gz_backwards(
        tree: *const u16, tree_len: usize, party: u16, query: *const u16, query_len: usize, columns: u16, nodes: *const u16,
        nodes_len: usize, from: *const u8, from_len: usize, to: *mut u8, to_len: usize,
    ) -> ImageReply;
    fn gz_pairs(
        tree: *const u16, tree_len: usize, party: u16, query: *const u16, query_len: usize, columns: u16, nodes: *const u16,
        nodes_len: usize, table: *mut u8, table_len: usize,
    ) -> Reply;
    fn gz_pairs_bits(
        tree: *const u16, tree_len: usize, party: u16, query: *const u16, query_len: usize, columns: u16, nodes: *const u16,
        nodes_len: usize, words: *mut u64, words_len: usize,
    ) -> Reply;
    fn gz_pack(n: u16, table: *const u8, table_len: usize, words: *mut u64, words_len: usize) -> Reply;
    fn gz_unpack(n: u16, words: *const u64, words_len: usize, table: *mut u8, table_len: usize) -> Reply;
    fn gz_page(
        tree: *const u16, tree_len: usize, party: u16, query: *const u16, query_len: usize, columns: u16, cursor: *mut Cursor,
        rows: *mut u16, rows_len: usize,
    ) -> PageReply;
    fn gz_quick_page(
        tree: *const u16, tree_len: usize, party: u16, query: *const u16, query_len: usize, columns: u16, cursor: *mut Cursor,
        rows: *mut u16, rows_len: usize,
    ) -> QuickReply;
    fn gz_name(house: *const u8, house_len: usize, site: *const u8, site_len: usize, tag: u16, name: *mut Part) -> Reply;
    fn gz_read(
        text: *const u8, text_len: usize, house: *const u8, house_len: usize, site: *const u8, site_len: usize,
        query: *mut u16, query_len: usize,
    ) -> ReadReply;
    fn gz_reverse(query: *const u16, query_len: usize, columns: u16, out: *mut u16, out_len: usize) -> MadeReply;
    fn gz_index(
        tree: *const u16, tree_len: usize, party: u16, next: *mut u16, next_len: usize, tags: *mut u16, tags_len: usize,
    ) -> IndexReply;
    fn gz_descendants(
        tree: *const u16, tree_len: usize, party: u16, next: *const u16, next_len: usize, start: u16, tag: u16, to: *mut u8,
        to_len: usize,
    ) -> ImageReply;
}

// Safe forms: a slice is its pointer and its length, and a shared table stands with its party.

#[derive(Clone)]
struct Shared {
    numbers: Vec<u16>,
    party: u16,
}

// Every node common, lent to party 1: owner 0 behind each node's two numbers. A number too many stays one.
fn common(tree: &[u16]) -> Shared {
    let node = |pair: &[u16]| if pair.len() == 2 { vec![pair[0], pair[1], 0] } else { pair.to_vec() };
    Shared { numbers: tree.chunks(2).flat_map(node).collect(), party: 1 }
}

fn check_table(table: &[u16]) -> Reply {
    unsafe { gz_check_tree(table.as_ptr(), table.len()) }
}

fn check_tree(tree: &[u16]) -> Reply {
    check_table(&common(tree).numbers)
}

fn seen(t: &Shared, table: &mut [u16]) -> MadeReply {
    unsafe { gz_seen(t.numbers.as_ptr(), t.numbers.len(), t.party, table.as_mut_ptr(), table.len()) }
}

fn check_query(query: &[u16], columns: u16) -> Reply {
    unsafe { gz_check_query(query.as_ptr(), query.len(), columns) }
}

fn image(f: Image, query: &[u16], nodes: &[u16], from: &[u8], to: &mut [u8]) -> ImageReply {
    image_on(f, &WAREHOUSE, query, nodes, from, to)
}

fn image_on(f: Image, tree: &[u16], query: &[u16], nodes: &[u16], from: &[u8], to: &mut [u8]) -> ImageReply {
    image_for(f, &common(tree), query, nodes, from, to)
}

fn image_for(f: Image, t: &Shared, query: &[u16], nodes: &[u16], from: &[u8], to: &mut [u8]) -> ImageReply {
    let (n, q) = (&t.numbers, query);
    unsafe {
        f(n.as_ptr(), n.len(), t.party, q.as_ptr(), q.len(), nodes.len() as u16, nodes.as_ptr(), nodes.len(), from.as_ptr(), from.len(), to.as_mut_ptr(), to.len())
    }
}

fn pairs(query: &[u16], nodes: &[u16], table: &mut [u8]) -> Reply {
    pairs_for(&common(&WAREHOUSE), query, nodes, table)
}

fn pairs_for(t: &Shared, query: &[u16], nodes: &[u16], table: &mut [u8]) -> Reply {
    let (n, q) = (&t.numbers, query);
    unsafe {
        gz_pairs(n.as_ptr(), n.len(), t.party, q.as_ptr(), q.len(), nodes.len() as u16, nodes.as_ptr(), nodes.len(), table.as_mut_ptr(), table.len())
    }
}

fn pairs_bits(tree: &[u16], query: &[u16], nodes: &[u16], words: &mut [u64]) -> Reply {
    pairs_bits_for(&common(tree), query, nodes, words)
}

fn pairs_bits_for(t: &Shared, query: &[u16], nodes: &[u16], words: &mut [u64]) -> Reply {
    let (n, q) = (&t.numbers, query);
    unsafe {
        gz_pairs_bits(n.as_ptr(), n.len(), t.party, q.as_ptr(), q.len(), nodes.len() as u16, nodes.as_ptr(), nodes.len(), words.as_mut_ptr(), words.len())
    }
}

fn pack(n: u16, table: &[u8], words: &mut [u64]) -> Reply {
    unsafe { gz_pack(n, table.as_ptr(), table.len(), words.as_mut_ptr(), words.len()) }
}

fn unpack(n: u16, words: &[u64], table: &mut [u8]) -> Reply {
    unsafe { gz_unpack(n, words.as_ptr(), words.len(), table.as_mut_ptr(), table.len()) }
}

fn page(query: &[u16], columns: u16, cursor: &mut Cursor, rows: &mut [u16]) -> PageReply {
    page_for(&common(&WAREHOUSE), query, columns, cursor, rows)
}

fn page_for(t: &Shared, query: &[u16], columns: u16, cursor: &mut Cursor, rows: &mut [u16]) -> PageReply {
    let (n, q) = (&t.numbers, query);
    unsafe { gz_page(n.as_ptr(), n.len(), t.party, q.as_ptr(), q.len(), columns, cursor, rows.as_mut_ptr(), rows.len()) }
}

fn quick_page(tree: &[u16], query: &[u16], columns: u16, cursor: &mut Cursor, rows: &mut [u16]) -> QuickReply {
    quick_page_for(&common(tree), query, columns, cursor, rows)
}

fn quick_page_for(t: &Shared, query: &[u16], columns: u16, cursor: &mut Cursor, rows: &mut [u16]) -> QuickReply {
    let (n, q) = (&t.numbers, query);
    unsafe { gz_quick_page(n.as_ptr(), n.len(), t.party, q.as_ptr(), q.len(), columns, cursor, rows.as_mut_ptr(), rows.len()) }
}

// The part borrows from the table that holds it.
fn name<'a>(house: &'a [u8], site: &'a [u8], tag: u16) -> (Reply, &'a [u8]) {
    let mut part = Part { start: house.as_ptr(), length: 0 };
    unsafe {
        let reply = gz_name(house.as_ptr(), house.len(), site.as_ptr(), site.len(), tag, &mut part);
        (reply, std::slice::from_raw_parts(part.start, part.length))
    }
}

fn read(text: &[u8], house: &[u8], site: &[u8], query: &mut [u16]) -> ReadReply {
    let (t, h, s) = (text, house, site);
    unsafe { gz_read(t.as_ptr(), t.len(), h.as_ptr(), h.len(), s.as_ptr(), s.len(), query.as_mut_ptr(), query.len()) }
}

fn reverse(query: &[u16], columns: u16, out: &mut [u16]) -> MadeReply {
    unsafe { gz_reverse(query.as_ptr(), query.len(), columns, out.as_mut_ptr(), out.len()) }
}

fn index(tree: &[u16], next: &mut [u16], tags: &mut [u16]) -> IndexReply {
    index_for(&common(tree), next, tags)
}

fn index_for(t: &Shared, next: &mut [u16], tags: &mut [u16]) -> IndexReply {
    let n = &t.numbers;
    unsafe { gz_index(n.as_ptr(), n.len(), t.party, next.as_mut_ptr(), next.len(), tags.as_mut_ptr(), tags.len()) }
}

fn descendants(tree: &[u16], next: &[u16], start: u16, tag: u16, to: &mut [u8]) -> ImageReply {
    descendants_for(&common(tree), next, start, tag, to)
}

fn descendants_for(t: &Shared, next: &[u16], start: u16, tag: u16, to: &mut [u8]) -> ImageReply {
    let n = &t.numbers;
    unsafe { gz_descendants(n.as_ptr(), n.len(), t.party, next.as_ptr(), next.len(), start, tag, to.as_mut_ptr(), to.len()) }
}

const WAREHOUSE: [u16; 12] = [65535, 1, 0, 2, 1, 3, 1, 3, 0, 2, 4, 3];
// the same below a document node
const DOCUMENT: [u16; 14] = [65535, 65534, 0, 1, 1, 2, 2, 3, 2, 3, 1, 2, 5, 3];
// a hall of two firms: party 1 sees the nodes 0, 1, 2, 5 and 6, and party 2 the nodes 0, 1, 3 and 4
const FIRMS: [u16; 21] = [65535, 1, 0, 0, 2, 0, 1, 3, 1, 1, 3, 2, 1, 3, 2, 0, 2, 1, 5, 3, 0];
// descendant::2[. is $0]/child::3[. is $1]
const PALLETS: [u16; 28] = [0, 5, 0, 2, 12, 0, 0, 0, 5, 0, 1, 0, 0, 1, 0, 3, 12, 1, 0, 0, 5, 3, 4, 0, 1, 2, 5, 0];
const FOLLOWING: [u16; 4] = [0, 7, 0, 65535];
const CHILD: [u16; 4] = [0, 1, 0, 65535];
// (child::*)* and child::*[child::* same descendant::3], the bays that have pallets
const BELOW: [u16; 8] = [0, 1, 0, 65535, 13, 0, 0, 0];
const WITH_PALLETS: [u16; 20] = [0, 1, 0, 65535, 0, 1, 0, 65535, 0, 5, 0, 3, 14, 1, 2, 0, 5, 0, 3, 0];
const ACCEPTED: Reply = Reply { number: 0, place: 0 };

fn refused(number: u16, place: u16) -> Reply {
    Reply { number, place }
}

fn main() {
    assert_eq!(check_tree(&WAREHOUSE), ACCEPTED);
    assert_eq!(check_tree(&[]), refused(5, 0));
    assert_eq!(check_tree(&[65535, 1, 1, 2]), refused(6, 1));
    assert_eq!(check_tree(&DOCUMENT), ACCEPTED);
    assert_eq!(check_tree(&[65535, 65535]), refused(7, 0));
    assert_eq!(check_tree(&[65535, 65534, 0, 65534]), refused(7, 1));
    assert_eq!(check_query(&[0, 1, 0, 65534], 0), ACCEPTED);
    assert_eq!(check_query(&[0, 13, 0, 65534], 0), refused(11, 0));
    assert_eq!(check_query(&PALLETS, 2), ACCEPTED);
    assert_eq!(check_query(&PALLETS, 1), refused(11, 4));
    assert_eq!(check_query(&BELOW, 0), ACCEPTED);
    assert_eq!(check_query(&WITH_PALLETS, 0), ACCEPTED);
    assert_eq!(check_query(&[0, 1, 0, 65535, 15, 0, 0, 0], 0), refused(10, 1));
    assert_eq!(check_query(&[0, 1, 0, 65535, 13, 0, 1, 0], 0), refused(11, 1));
    assert_eq!(check_query(&[12, 0, 0, 0, 13, 0, 0, 0], 1), refused(13, 1));
    assert_eq!(check_query(&WITH_PALLETS[..16], 0), refused(14, 0));

    let found = |count| ImageReply { number: 0, place: 0, count };
    let no_image = |number, place| ImageReply { number, place, count: 0 };
    let mut set = [7; 8];
    assert_eq!(image(gz_forwards, &FOLLOWING, &[], &[0, 0, 1, 0, 0, 0], &mut set), found(3));
    assert_eq!(set, [0, 0, 0, 1, 1, 1, 7, 7]);
    assert_eq!(image(gz_forwards, &FOLLOWING, &[], &[0, 0, 1, 2, 0, 0], &mut set), no_image(19, 3));
    assert_eq!(set, [0, 0, 0, 1, 1, 1, 7, 7]);
    assert_eq!(image(gz_backwards, &PALLETS, &[1, 3], &[0, 0, 0, 1, 0, 0], &mut set), found(1));
    assert_eq!(set, [1, 0, 0, 0, 0, 0, 7, 7]);
    assert_eq!(image(gz_backwards, &PALLETS, &[1, 6], &[0, 0, 0, 1, 0, 0], &mut set), no_image(17, 1));
    assert_eq!(image(gz_backwards, &FOLLOWING, &[], &[0; 6], &mut set[..5]), no_image(20, 0));
    assert_eq!(set, [1, 0, 0, 0, 0, 0, 7, 7]);

    // the star of a path, and same, either way
    assert_eq!(image(gz_forwards, &BELOW, &[], &[0, 1, 0, 0, 0, 1], &mut set), found(4));
    assert_eq!(set, [0, 1, 1, 1, 0, 1, 7, 7]);
    assert_eq!(image(gz_backwards, &BELOW, &[], &[0, 0, 0, 1, 0, 0], &mut set), found(3));
    assert_eq!(set, [1, 1, 0, 1, 0, 0, 7, 7]);
    assert_eq!(image(gz_forwards, &WITH_PALLETS, &[], &[1; 6], &mut set), found(2));
    assert_eq!(set, [0, 1, 0, 0, 1, 0, 7, 7]);
    assert_eq!(image(gz_backwards, &WITH_PALLETS, &[], &[1; 6], &mut set), found(1));
    assert_eq!(set, [1, 0, 0, 0, 0, 0, 7, 7]);
    assert_eq!(image(gz_forwards, &WITH_PALLETS[4..16], &[], &[1; 6], &mut set), no_image(12, 2));
    assert_eq!(image(gz_backwards, &[0, 1, 0, 65535, 0, 1, 0, 2, 14, 0, 1, 0], &[], &[1; 6], &mut set), no_image(15, 2));
    assert_eq!(set, [1, 0, 0, 0, 0, 0, 7, 7]);
    let (mut cells, mut words) = ([7; 38], [7; 26]);
    assert_eq!(pairs(&BELOW, &[], &mut cells), ACCEPTED);
    assert_eq!(pairs_bits(&WAREHOUSE, &BELOW, &[], &mut words), ACCEPTED);
    for (x, row) in [0b111111, 0b001110, 0b000100, 0b001000, 0b110000, 0b100000].into_iter().enumerate() {
        assert_eq!(cells[6 * x..][..6], [0, 1, 2, 3, 4, 5].map(|y| (row >> y & 1) as u8));
        assert_eq!(words[4 * x..][..4], [row, 0, 0, 0]);
    }
    assert_eq!((&cells[36..], &words[24..]), (&[7; 2][..], &[7; 2][..]));
    assert_eq!(pairs_bits(&WAREHOUSE, &WITH_PALLETS, &[], &mut words), ACCEPTED);
    assert_eq!((words[0], &words[1..24], &words[24..]), (0b010010, &[0; 23][..], &[7; 2][..]));

    let mut table = [7; 38];
    assert_eq!(pairs(&CHILD, &[], &mut table[..35]), refused(20, 0));
    assert_eq!(table, [7; 38]);
    assert_eq!(pairs(&CHILD, &[], &mut table), ACCEPTED);
    let mut children = [0; 38];
    for (x, y) in [(0, 1), (0, 4), (1, 2), (1, 3), (4, 5)] {
        children[x * 6 + y] = 1;
    }
    children[36..].fill(7);
    assert_eq!(table, children);

    // the same pairs in bits, and both forms turned into each other
    let mut words = [7; 26];
    assert_eq!(pairs_bits(&WAREHOUSE[..11], &CHILD, &[], &mut words), refused(5, 0));
    assert_eq!(pairs_bits(&[65535, 1, 1, 2], &CHILD, &[], &mut words), refused(6, 1));
    assert_eq!(pairs_bits(&WAREHOUSE, &[0, 13, 0, 1], &[], &mut words), refused(11, 0));
    assert_eq!(pairs_bits(&WAREHOUSE, &PALLETS, &[1, 6], &mut words), refused(17, 1));
    assert_eq!(pairs_bits(&WAREHOUSE, &CHILD, &[], &mut words[..23]), refused(20, 0));
    assert_eq!(words, [7; 26]);
    assert_eq!(pairs_bits(&WAREHOUSE, &CHILD, &[], &mut words), ACCEPTED);
    let mut children_bits = [0; 26];
    for (x, row) in [(0, 0b010010), (1, 0b001100), (4, 0b100000)] {
        children_bits[4 * x] = row;
    }
    children_bits[24..].fill(7);
    assert_eq!(words, children_bits);
    assert_eq!(pairs_bits(&WAREHOUSE, &PALLETS, &[1, 3], &mut words[..24]), ACCEPTED);
    assert_eq!((words[0], &words[1..24], &words[24..]), (8, &[0; 23][..], &[7; 2][..]));

    let mut words = [7; 26];
    assert_eq!(pack(6, &table[..36], &mut words), ACCEPTED);
    assert_eq!(words, children_bits);
    let mut back = [9; 38];
    assert_eq!(unpack(6, &words[..24], &mut back), ACCEPTED);
    assert_eq!((&back[..36], &back[36..]), (&table[..36], &[9; 2][..]));
    let mut words = [7; 26];
    assert_eq!(pack(0, &table[..36], &mut words), refused(5, 0));
    assert_eq!(pack(257, &table[..36], &mut words), refused(5, 0));
    assert_eq!(pack(6, &table[..35], &mut words), refused(18, 0));
    assert_eq!(pack(6, &table[2..], &mut words), refused(19, 34));
    assert_eq!(pack(6, &table[..36], &mut words[..23]), refused(20, 0));
    assert_eq!(pack(6, &[], &mut []), refused(18, 0));
    assert_eq!(words, [7; 26]);
    let mut bits = children_bits;
    let mut back = [9; 38];
    assert_eq!(unpack(0, &bits[..24], &mut back), refused(5, 0));
    assert_eq!(unpack(257, &bits[..24], &mut back), refused(5, 0));
    assert_eq!(unpack(6, &bits[..25], &mut back), refused(18, 0));
    assert_eq!(unpack(6, &bits[..24], &mut back[..35]), refused(20, 0));
    bits[23] = 1;
    assert_eq!(unpack(6, &bits[..24], &mut back[..35]), refused(28, 5));
    bits[8] = 64;
    assert_eq!(unpack(6, &bits[..24], &mut back), refused(28, 2));
    assert_eq!(back, [9; 38]);

    let mut cursor = Cursor { begun: 0, last: [0, 0, 9] };
    let mut rows = [7; 5];
    assert_eq!(page(&PALLETS, 2, &mut cursor, &mut rows), PageReply { number: 0, place: 0, count: 2, more: true });
    assert_eq!((rows, cursor), ([1, 2, 1, 3, 7], Cursor { begun: 1, last: [1, 3, 9] }));
    assert_eq!(page(&PALLETS, 0, &mut cursor, &mut rows), PageReply { number: 9, place: 0, count: 0, more: false });
    assert_eq!((rows, cursor), ([1, 2, 1, 3, 7], Cursor { begun: 1, last: [1, 3, 9] }));
    assert_eq!(page(&PALLETS, 2, &mut cursor, &mut rows), PageReply { number: 0, place: 0, count: 1, more: false });
    assert_eq!((rows, cursor), ([4, 5, 1, 3, 7], Cursor { begun: 1, last: [4, 5, 9] }));

    // every byte but 0 is a begun cursor, and is kept where no row is written
    for begun in [1, 2, 4, 130, 255] {
        cursor = Cursor { begun, last: [1, 3, 9] };
        assert_eq!(page(&PALLETS, 2, &mut cursor, &mut rows[..1]), PageReply { number: 20, place: 0, count: 0, more: false });
        assert_eq!(cursor, Cursor { begun, last: [1, 3, 9] });
        assert_eq!(page(&PALLETS, 2, &mut cursor, &mut rows), PageReply { number: 0, place: 0, count: 1, more: false });
        assert_eq!((&rows[..2], cursor), (&[4, 5][..], Cursor { begun: 1, last: [4, 5, 9] }));
        cursor.begun = begun;
        assert_eq!(page(&PALLETS, 2, &mut cursor, &mut rows), PageReply { number: 0, place: 0, count: 0, more: false });
        assert_eq!(cursor, Cursor { begun, last: [4, 5, 9] });
    }

    // quick pages, with the evaluations that each took; a page between two of them; and what they refuse
    let counted = |count, more, evaluations| QuickReply { number: 0, place: 0, count, more, evaluations };
    let uncounted = |number, place| QuickReply { number, place, count: 0, more: false, evaluations: 0 };
    let mut cursor = Cursor { begun: 0, last: [0, 0, 9] };
    let mut rows = [7; 5];
    assert_eq!(quick_page(&WAREHOUSE, &PALLETS, 2, &mut cursor, &mut rows), counted(2, true, 18));
    assert_eq!((rows, cursor), ([1, 2, 1, 3, 7], Cursor { begun: 1, last: [1, 3, 9] }));
    assert_eq!(quick_page(&WAREHOUSE, &PALLETS, 2, &mut cursor, &mut rows), counted(1, false, 12));
    assert_eq!((rows, cursor), ([4, 5, 1, 3, 7], Cursor { begun: 1, last: [4, 5, 9] }));
    assert_eq!(quick_page(&WAREHOUSE, &PALLETS, 2, &mut cursor, &mut rows), counted(0, false, 1));
    assert_eq!((rows, cursor), ([4, 5, 1, 3, 7], Cursor { begun: 1, last: [4, 5, 9] }));

    let mut cursor = Cursor { begun: 0, last: [0, 0, 9] };
    assert_eq!(quick_page(&WAREHOUSE, &PALLETS, 2, &mut cursor, &mut rows[..2]), counted(1, true, 7));
    assert_eq!(page(&PALLETS, 2, &mut cursor, &mut rows[..2]), PageReply { number: 0, place: 0, count: 1, more: true });
    assert_eq!((&rows[..2], cursor), (&[1, 3][..], Cursor { begun: 1, last: [1, 3, 9] }));
    let shared = [6, 0, 0, 0, 12, 0, 0, 0, 5, 0, 1, 0];
    assert_eq!(quick_page(&WAREHOUSE, &shared, 1, &mut cursor, &mut []), uncounted(29, 2));
    assert_eq!(quick_page(&WAREHOUSE, &[12, 0, 0, 0, 12, 0, 0, 0, 10, 0, 1, 0], 1, &mut cursor, &mut []), uncounted(15, 2));
    assert_eq!(quick_page(&WAREHOUSE[..11], &shared, 1, &mut cursor, &mut rows), uncounted(5, 0));
    assert_eq!(quick_page(&WAREHOUSE, &PALLETS, 0, &mut cursor, &mut rows), uncounted(9, 0));
    assert_eq!(quick_page(&WAREHOUSE, &PALLETS, 3, &mut cursor, &mut rows), uncounted(17, 2));
    assert_eq!(quick_page(&WAREHOUSE, &PALLETS, 2, &mut cursor, &mut rows[..1]), uncounted(20, 0));
    assert_eq!((&rows[..2], cursor), (&[1, 3][..], Cursor { begun: 1, last: [1, 3, 9] }));
    assert_eq!(quick_page(&WAREHOUSE, &PALLETS, 2, &mut cursor, &mut rows), counted(1, false, 12));
    assert_eq!((&rows[..2], cursor), (&[4, 5][..], Cursor { begun: 1, last: [4, 5, 9] }));

    // a variable under a star or a same: a page takes it, and a quick page does not
    let under_star = [6, 0, 0, 0, 13, 0, 0, 0];
    let under_same = [0, 0, 0, 65534, 0, 1, 0, 3, 6, 0, 0, 0, 14, 1, 2, 0, 5, 0, 3, 0];
    let (mut cursor, mut all) = (Cursor { begun: 0, last: [0, 8, 9] }, [7; 7]);
    assert_eq!(quick_page(&WAREHOUSE, &under_star, 1, &mut cursor, &mut all), uncounted(29, 1));
    assert_eq!(quick_page(&WAREHOUSE, &under_same, 1, &mut cursor, &mut []), uncounted(29, 3));
    assert_eq!((all, cursor), ([7; 7], Cursor { begun: 0, last: [0, 8, 9] }));
    assert_eq!(page(&under_star, 1, &mut cursor, &mut all), PageReply { number: 0, place: 0, count: 6, more: false });
    assert_eq!((all, cursor), ([0, 1, 2, 3, 4, 5, 7], Cursor { begun: 1, last: [5, 8, 9] }));
    cursor.begun = 0;
    assert_eq!(page(&under_same, 1, &mut cursor, &mut all), PageReply { number: 0, place: 0, count: 3, more: false });
    assert_eq!((all, cursor), ([2, 3, 5, 3, 4, 5, 7], Cursor { begun: 1, last: [5, 8, 9] }));
    let beside = [6, 0, 0, 0, 0, 1, 0, 65535, 0, 5, 0, 3, 14, 1, 2, 0, 5, 0, 3, 0];
    cursor.begun = 0;
    assert_eq!(quick_page(&WAREHOUSE, &beside, 1, &mut cursor, &mut all), counted(2, false, 7));
    assert_eq!((&all[..2], cursor), (&[1, 4][..], Cursor { begun: 1, last: [4, 8, 9] }));

    let (house, site): (&[u8], &[u8]) = (b"\x05store\x04hall\x03bay", b"\x06pallet");
    assert_eq!(name(house, site, 1), (ACCEPTED, &b"hall"[..]));
    let (reply, pallet) = name(house, site, 3);
    assert_eq!((reply, pallet, pallet.as_ptr()), (ACCEPTED, &b"pallet"[..], site[1..].as_ptr()));
    let (reply, nothing) = name(house, site, 4);
    assert_eq!((reply, nothing.len(), nothing.as_ptr()), (refused(22, 0), 0, house.as_ptr()));
    assert_eq!(name(house, &site[..6], 0).0, refused(21, 1));

    // typed queries: what is read is evaluated, and a refused text leaves the buffer as it was
    let unread = |number, place| ReadReply { number, place, count: 0, columns: 0 };
    let mut query = [7; 256];
    let text = b"descendant::bay[. is $0]/child::pallet[. is $1]";
    assert_eq!(read(text, house, site, &mut query[..28]), ReadReply { number: 0, place: 0, count: 28, columns: 2 });
    assert_eq!((&query[..28], &query[28..]), (&PALLETS[..], &[7; 228][..]));
    let mut cursor = Cursor { begun: 0, last: [0, 0, 9] };
    let mut all = [7; 7];
    assert_eq!(page(&query[..28], 2, &mut cursor, &mut all), PageReply { number: 0, place: 0, count: 3, more: false });
    assert_eq!(all, [1, 2, 1, 3, 4, 5, 7]);

    let mut query = [7; 40];
    let text = b"child::bay[child::pallet and not(right::*)]";
    assert_eq!(read(text, house, site, &mut query), ReadReply { number: 0, place: 0, count: 32, columns: 0 });
    let last_bay = [0, 1, 0, 2, 0, 1, 0, 3, 8, 1, 0, 0, 0, 3, 0, 65535, 8, 3, 0, 0, 9, 4, 0, 0, 10, 2, 5, 0, 5, 0, 6, 0];
    assert_eq!((&query[..32], &query[32..]), (&last_bay[..], &[7; 8][..]));
    assert_eq!(check_query(&query[..32], 0), ACCEPTED);
    assert_eq!(image(gz_forwards, &query[..32], &[], &[1, 0, 0, 0, 0, 0], &mut set), found(1));
    assert_eq!(set, [0, 0, 0, 0, 1, 0, 7, 7]);

    // `..` and `node()`, and the star, which leaves out a document node
    assert_eq!(read(b"..", house, site, &mut query), ReadReply { number: 0, place: 0, count: 4, columns: 0 });
    assert_eq!(query[..4], [0, 2, 0, 65534]);
    assert_eq!(image_on(gz_forwards, &DOCUMENT, &query[..4], &[], &[0, 1, 1, 0, 0, 0, 0], &mut set), found(2));
    assert_eq!(set, [1, 1, 0, 0, 0, 0, 0, 7]);
    assert_eq!(read(b"parent::node()", house, site, &mut query), ReadReply { number: 0, place: 0, count: 4, columns: 0 });
    assert_eq!(query[..4], [0, 2, 0, 65534]);
    assert_eq!(image_on(gz_backwards, &DOCUMENT, &query[..4], &[], &[1, 0, 0, 0, 0, 0, 0], &mut set), found(1));
    assert_eq!(set, [0, 1, 0, 0, 0, 0, 0, 7]);
    assert_eq!(read(b"parent::*", house, site, &mut query), ReadReply { number: 0, place: 0, count: 4, columns: 0 });
    assert_eq!(query[..4], [0, 2, 0, 65535]);
    assert_eq!(image_on(gz_forwards, &DOCUMENT, &query[..4], &[], &[0, 1, 1, 0, 0, 0, 0], &mut set), found(1));
    assert_eq!(set, [0, 1, 0, 0, 0, 0, 0, 7]);
    assert_eq!(image_on(gz_backwards, &DOCUMENT, &query[..4], &[], &[1, 0, 0, 0, 0, 0, 0], &mut set), found(0));
    assert_eq!(set, [0, 0, 0, 0, 0, 0, 0, 7]);

    // the star of a path, and same
    assert_eq!(read(b"(child::*)*", house, site, &mut query), ReadReply { number: 0, place: 0, count: 8, columns: 0 });
    assert_eq!(query[..8], BELOW);
    let text = b"child::*[child::* same descendant::pallet]";
    assert_eq!(read(text, house, site, &mut query), ReadReply { number: 0, place: 0, count: 20, columns: 0 });
    assert_eq!(query[..20], WITH_PALLETS);

    let before = query;
    assert_eq!(read(b".[(child::bay or .)*]", house, site, &mut query), unread(24, 19));
    assert_eq!(read(b"(child::bay)**", house, site, &mut query), unread(24, 13));
    assert_eq!(read(b"child::bay same .", house, site, &mut query), unread(24, 11));
    assert_eq!(read(b".[. same .. same $0]", house, site, &mut query), unread(24, 12));
    assert_eq!(read(b"child::node(", house, site, &mut query), unread(24, 12));
    assert_eq!(read(b"child::nodes()", house, site, &mut query), unread(24, 12));
    assert_eq!(read(b"child::node", house, site, &mut query), unread(25, 7));
    assert_eq!(read(b"", &house[..5], &site[..6], &mut query), unread(21, 0));
    assert_eq!(read(b"", house, &site[..6], &mut query), unread(21, 1));
    assert_eq!(read(b"", house, site, &mut query), unread(23, 0));
    assert_eq!(read(&[b'('; 1025], house, site, &mut query), unread(23, 0));
    assert_eq!(read(&[b'('; 1024], house, site, &mut query), unread(24, 1024));
    assert_eq!(read(b"child::bay or child::shelf", house, site, &mut query), unread(24, 11));
    assert_eq!(read(b"child::bay[child::shelf", house, site, &mut query), unread(24, 23));
    assert_eq!(read(b"child::bay[child::shelf]", house, site, &mut query), unread(25, 18));
    assert_eq!(read(b"child::bay", &[], &[], &mut []), unread(25, 7));
    assert_eq!(read(&b"/.".repeat(33), house, site, &mut []), unread(26, 0));
    assert_eq!(read(b"child::bay", house, site, &mut query[..3]), unread(20, 0));
    assert_eq!(query, before);

    // an index, and what is found by it
    let unmade = |number, place| IndexReply { number, place, next: 0, tags: 0 };
    let (mut next, mut tags) = ([7; 8], [7; 11]);
    assert_eq!(index(&WAREHOUSE, &mut next[..5], &mut tags), unmade(20, 0));
    assert_eq!(index(&WAREHOUSE, &mut next, &mut tags[..8]), unmade(20, 0));
    assert_eq!(index(&WAREHOUSE[..11], &mut next, &mut tags), unmade(5, 0));
    assert_eq!(index(&[65535, 1, 1, 65535], &mut next, &mut tags), unmade(6, 1));
    assert_eq!(index(&[65535, 1, 0, 65534], &mut [], &mut []), unmade(7, 1));
    assert_eq!((next, tags), ([7; 8], [7; 11]));
    assert_eq!(index(&WAREHOUSE, &mut next, &mut tags), IndexReply { number: 0, place: 0, next: 6, tags: 9 });
    assert_eq!((next, tags), ([65535, 4, 3, 5, 65535, 65535, 7, 7], [1, 0, 1, 2, 1, 2, 3, 2, 3, 7, 7]));

    let (mut below, mut document_tags) = ([7; 8], [7; 13]);
    assert_eq!(index(&[65535, 65535], &mut below, &mut document_tags), unmade(7, 0));
    assert_eq!(index(&DOCUMENT, &mut below, &mut document_tags), IndexReply { number: 0, place: 0, next: 7, tags: 12 });
    assert_eq!((below, document_tags), ([65535, 65535, 5, 4, 6, 65535, 65535, 7], [1, 1, 1, 2, 2, 2, 3, 3, 3, 65534, 0, 1, 7]));

    let mut set = [7; 8];
    assert_eq!(descendants(&DOCUMENT, &below[..7], 0, 3, &mut set), found(3));
    assert_eq!(set, [0, 0, 0, 1, 1, 0, 1, 7]);
    assert_eq!(descendants(&DOCUMENT, &below[..7], 0, 65534, &mut set), found(0));
    assert_eq!(set, [0, 0, 0, 0, 0, 0, 0, 7]);
    set = [7; 8];
    assert_eq!(descendants(&WAREHOUSE, &next[..6], 0, 3, &mut set), found(3));
    assert_eq!(set, [0, 0, 1, 1, 0, 1, 7, 7]);
    assert_eq!(descendants(&WAREHOUSE, &next[..6], 1, 3, &mut set[..6]), found(2));
    assert_eq!(set, [0, 0, 1, 1, 0, 0, 7, 7]);
    assert_eq!(descendants(&WAREHOUSE, &next[..6], 0, 65535, &mut set), found(0));
    assert_eq!(set, [0, 0, 0, 0, 0, 0, 7, 7]);
    set = [7; 8];
    assert_eq!(descendants(&WAREHOUSE[..11], &[], 6, 3, &mut set), no_image(5, 0));
    assert_eq!(descendants(&WAREHOUSE, &[], 6, 3, &mut set), no_image(36, 0));
    assert_eq!(descendants(&WAREHOUSE, &next, 0, 3, &mut set), no_image(27, 0));
    next[3] = 4;
    assert_eq!(descendants(&WAREHOUSE, &next[..6], 1, 3, &mut set[..5]), no_image(27, 3));
    assert_eq!(descendants(&WAREHOUSE, &next[..6], 4, 3, &mut set[..5]), no_image(20, 0));
    assert_eq!(set, [7; 8]);

    nested();
    reversed();
    two_firms();
}

// Queries that nest: Q <- (.//./Q) intersect .//., fifteen deep, has the pairs of .//. A page leaves out blocks of rows: of self::9, which holds
// nowhere, all of them; of descendant::2[. is $0]/child::3 intersect $1, which no quick page takes, the rows of nodes that are no bay.
fn nested() {
    let mut query = vec![0, 11, 0, 65534];
    for level in 0..15u16 {
        let path = 4 * level;
        query.extend([0, 11, 0, 65534, 1, path + 1, path, 0, 0, 11, 0, 65534, 3, path + 2, path + 3, 0]);
    }
    let mut set = [7; 8];
    assert_eq!(image(gz_forwards, &query, &[], &[0, 1, 0, 0, 0, 1], &mut set), ImageReply { number: 0, place: 0, count: 4 });
    assert_eq!(set, [0, 1, 1, 1, 0, 1, 7, 7]);
    assert_eq!(image(gz_backwards, &query, &[], &[0, 0, 0, 1, 0, 0], &mut set), ImageReply { number: 0, place: 0, count: 3 });
    assert_eq!(set, [1, 1, 0, 1, 0, 0, 7, 7]);
    let (mut cells, mut below) = ([7; 38], [7; 38]);
    assert_eq!((pairs(&query, &[], &mut cells), pairs(&BELOW, &[], &mut below)), (ACCEPTED, ACCEPTED));
    assert_eq!(cells, below);

    let (mut cursor, mut rows) = (Cursor { begun: 0, last: [9; 3] }, [7; 8]);
    let fresh = Cursor { begun: 0, last: [9; 3] };
    assert_eq!(page(&[0, 0, 0, 9], 3, &mut cursor, &mut rows), PageReply { number: 0, place: 0, count: 0, more: false });
    assert_eq!((cursor, rows), (fresh, [7; 8]));
    let bays = [0, 5, 0, 2, 12, 0, 0, 0, 5, 0, 1, 0, 0, 1, 0, 3, 1, 2, 3, 0, 6, 1, 0, 0, 3, 4, 5, 0];
    assert_eq!(page(&bays, 2, &mut cursor, &mut rows), PageReply { number: 0, place: 0, count: 3, more: false });
    assert_eq!((cursor, rows), (Cursor { begun: 1, last: [4, 5, 9] }, [1, 2, 1, 3, 4, 5, 7, 7]));
}

// Reversed queries: a table of each kind, refusals, and that forwards over one is backwards over the other, for both parties.
fn reversed() {
    let made = |count| MadeReply { number: 0, place: 0, count };
    let unmade = |number, place| MadeReply { number, place, count: 0 };
    // each with its number of variables, and what it is reversed
    let queries: [(&[u16], u16, &[u16]); 8] = [
        // child::3, $1, child::2/right::3, (child::2 union right::3) intersect descendant::3 except following::1, (child::2)*
        (&[0, 1, 0, 3], 0, &[0, 0, 0, 3, 0, 2, 0, 65534, 1, 0, 1, 0]),
        (&[6, 1, 0, 0], 2, &[0, 0, 0, 65534, 12, 1, 0, 0, 5, 0, 1, 0, 0, 12, 0, 65534, 1, 2, 3, 0, 0, 11, 0, 65534, 1, 4, 5, 0]),
        (
            &[0, 1, 0, 2, 0, 3, 0, 3, 1, 0, 1, 0],
            0,
            &[0, 0, 0, 3, 0, 4, 0, 65534, 1, 0, 1, 0, 0, 0, 0, 2, 0, 2, 0, 65534, 1, 3, 4, 0, 1, 2, 5, 0],
        ),
        (
            &[0, 1, 0, 2, 0, 3, 0, 3, 2, 0, 1, 0, 0, 5, 0, 3, 3, 2, 3, 0, 0, 7, 0, 1, 4, 4, 5, 0],
            0,
            &[
                0, 0, 0, 2, 0, 2, 0, 65534, 1, 0, 1, 0, 0, 0, 0, 3, 0, 4, 0, 65534, 1, 3, 4, 0, 2, 2, 5, 0, 0, 0, 0, 3, 0, 6, 0, 65534,
                1, 7, 8, 0, 3, 6, 9, 0, 0, 0, 0, 1, 0, 8, 0, 65534, 1, 11, 12, 0, 4, 10, 13, 0,
            ],
        ),
        (&[0, 1, 0, 2, 13, 0, 0, 0], 0, &[0, 0, 0, 2, 0, 2, 0, 65534, 1, 0, 1, 0, 13, 2, 0, 0]),
        // /child::2, and child::*[child::* same descendant::3], whose test is copied, lent in another order of entries
        (
            &[0, 1, 0, 2, 7, 0, 0, 0],
            0,
            &[
                0, 0, 0, 2, 0, 2, 0, 65534, 1, 0, 1, 0, 0, 0, 0, 65534, 0, 2, 0, 65534, 8, 4, 0, 0, 9, 5, 0, 0, 5, 3, 6, 0, 1, 2, 7, 0,
                0, 11, 0, 65534, 1, 8, 9, 0,
            ],
        ),
        (
            &[0, 5, 0, 3, 0, 1, 0, 65535, 14, 1, 0, 0, 0, 1, 0, 65535, 5, 3, 2, 0],
            0,
            &[
                0, 0, 0, 65534, 0, 1, 0, 65535, 0, 5, 0, 3, 14, 1, 2, 0, 5, 0, 3, 0, 0, 0, 0, 65535, 0, 2, 0, 65534, 1, 5, 6, 0, 1, 4,
                7, 0,
            ],
        ),
        // the bays with their pallets
        (
            &PALLETS,
            2,
            &[
                0, 0, 0, 65534, 12, 1, 0, 0, 5, 0, 1, 0, 0, 0, 0, 3, 0, 2, 0, 65534, 1, 3, 4, 0, 1, 2, 5, 0, 0, 0, 0, 65534, 12, 0, 0, 0,
                5, 7, 8, 0, 0, 0, 0, 2, 0, 6, 0, 65534, 1, 10, 11, 0, 1, 9, 12, 0, 1, 6, 13, 0,
            ],
        ),
    ];
    for (query, columns, due) in queries {
        let mut out = [7; 66];
        assert_eq!(reverse(query, columns, &mut out[..due.len() - 1]), unmade(20, 0));
        assert_eq!(out, [7; 66]);
        assert_eq!(reverse(query, columns, &mut out), made(due.len()));
        assert_eq!((&out[..due.len()], &out[due.len()..]), (due, &[7; 66][due.len()..]));
        assert_eq!(reverse(query, 3, &mut out[..due.len()]), made(due.len()));
        assert_eq!(check_query(due, columns), ACCEPTED);
        for t in [common(&WAREHOUSE), Shared { numbers: FIRMS.to_vec(), party: 1 }, Shared { numbers: FIRMS.to_vec(), party: 2 }] {
            let n = [6, 5, 4][if t.numbers.len() == 18 { 0 } else { t.party as usize }];
            let nodes = &[3, 2][..columns as usize];
            for set in 0..1 << n {
                let from: Vec<u8> = (0..n).map(|x| (set >> x & 1) as u8).collect();
                let (mut to, mut back) = ([7; 6], [7; 6]);
                let reply = image_for(gz_forwards, &t, due, nodes, &from, &mut to);
                assert_eq!((reply.number, reply), (0, image_for(gz_backwards, &t, query, nodes, &from, &mut back)));
                assert_eq!(to, back);
                let reply = image_for(gz_backwards, &t, due, nodes, &from, &mut to);
                assert_eq!((reply.number, reply), (0, image_for(gz_forwards, &t, query, nodes, &from, &mut back)));
                assert_eq!(to, back);
            }
        }
    }

    // as many steps composed as can be reversed, and one more; a star over them, and two
    let mut run = vec![0, 1, 0, 2];
    for k in 1..16 {
        run.extend([0, 1, 0, 2, 1, 2 * k - 2, 2 * k - 1, 0]);
    }
    let mut out = [7; 256];
    assert_eq!(reverse(&run, 0, &mut out[..252]), made(252));
    run.extend([13, 30, 0, 0]);
    assert_eq!(reverse(&run, 0, &mut out), made(256));
    assert_eq!((&out[..4], &out[252..]), (&[0, 0, 0, 2][..], &[13, 62, 0, 0][..]));
    out = [7; 256];
    assert_eq!(reverse(&run, 0, &mut out[..255]), unmade(20, 0));
    run.extend([13, 31, 0, 0]);
    assert_eq!(reverse(&run, 0, &mut out[..0]), unmade(26, 0));
    assert_eq!(reverse(&[], 0, &mut out), unmade(8, 0));
    assert_eq!(reverse(&CHILD, 4, &mut out), unmade(9, 0));
    assert_eq!(reverse(&[15, 0, 0, 0], 0, &mut out), unmade(10, 0));
    assert_eq!(reverse(&PALLETS, 1, &mut out), unmade(11, 4));
    assert_eq!(reverse(&[7, 0, 0, 0], 0, &mut out), unmade(12, 0));
    assert_eq!(reverse(&[0, 1, 0, 2, 9, 0, 0, 0], 0, &mut out), unmade(13, 1));
    assert_eq!(reverse(&[0, 1, 0, 2, 0, 1, 0, 3], 0, &mut out), unmade(14, 0));
    assert_eq!(reverse(&[12, 0, 0, 0], 1, &mut out[..0]), unmade(15, 0));
    assert_eq!(out, [7; 256]);
}

// Each party over one table, the other's nodes hidden, and what is refused of table and party before all else.
fn two_firms() {
    let of = |party| Shared { numbers: FIRMS.to_vec(), party };
    let made = |count| MadeReply { number: 0, place: 0, count };
    let (one, two) = (of(1), of(2));
    assert_eq!(check_table(&FIRMS), ACCEPTED);
    let mut table = [7; 11];
    assert_eq!(seen(&one, &mut table), made(10));
    assert_eq!(table, [65535, 1, 0, 2, 1, 3, 0, 2, 3, 3, 7]);
    table = [7; 11];
    assert_eq!(seen(&two, &mut table[..8]), made(8));
    assert_eq!(table, [65535, 1, 0, 2, 1, 3, 1, 3, 7, 7, 7]);
    assert_eq!(seen(&two, &mut table[..7]), MadeReply { number: 20, place: 0, count: 0 });
    assert_eq!(table, [65535, 1, 0, 2, 1, 3, 1, 3, 7, 7, 7]);

    let found = |count| ImageReply { number: 0, place: 0, count };
    let mut set = [7; 6];
    assert_eq!(image_for(gz_forwards, &one, &FOLLOWING, &[], &[0, 1, 0, 0, 0], &mut set), found(2));
    assert_eq!(set, [0, 0, 0, 1, 1, 7]);
    assert_eq!(image_for(gz_forwards, &two, &FOLLOWING, &[], &[0, 1, 1, 0], &mut set), found(1));
    assert_eq!(set, [0, 0, 0, 1, 1, 7]);
    assert_eq!(image_for(gz_backwards, &one, &CHILD, &[], &[0, 0, 0, 0, 1], &mut set), found(1));
    assert_eq!(set, [0, 0, 0, 1, 0, 7]);
    assert_eq!(image_for(gz_backwards, &two, &PALLETS, &[1, 3], &[1, 1, 1, 1], &mut set), found(1));
    assert_eq!(set, [1, 0, 0, 0, 0, 7]);

    let mut table = [7; 17];
    assert_eq!(pairs_for(&two, &CHILD, &[], &mut table), ACCEPTED);
    assert_eq!(table, [0, 1, 0, 0, 0, 0, 1, 1, 0, 0, 0, 0, 0, 0, 0, 0, 7]);
    let mut words = [7; 21];
    assert_eq!(pairs_bits_for(&one, &CHILD, &[], &mut words), ACCEPTED);
    assert_eq!(words, [10, 0, 0, 0, 4, 0, 0, 0, 0, 0, 0, 0, 16, 0, 0, 0, 0, 0, 0, 0, 7]);

    let (mut cursor, mut rows) = (Cursor { begun: 0, last: [0, 0, 9] }, [7; 5]);
    assert_eq!(page_for(&one, &PALLETS, 2, &mut cursor, &mut rows), PageReply { number: 0, place: 0, count: 2, more: false });
    assert_eq!((rows, cursor), ([1, 2, 3, 4, 7], Cursor { begun: 1, last: [3, 4, 9] }));
    let (mut cursor, mut rows) = (Cursor { begun: 0, last: [0, 0, 9] }, [7; 5]);
    let counted = QuickReply { number: 0, place: 0, count: 2, more: false, evaluations: 9 };
    assert_eq!(quick_page_for(&two, &PALLETS, 2, &mut cursor, &mut rows), counted);
    assert_eq!((rows, cursor), ([1, 2, 1, 3, 7], Cursor { begun: 1, last: [1, 3, 9] }));

    let (mut next, mut tags) = ([7; 6], [7; 10]);
    assert_eq!(index_for(&one, &mut next, &mut tags), IndexReply { number: 0, place: 0, next: 5, tags: 9 });
    assert_eq!((next, tags), ([65535, 3, 4, 65535, 65535, 7], [1, 0, 1, 2, 1, 2, 3, 2, 2, 7]));
    assert_eq!(descendants_for(&one, &next[..5], 0, 3, &mut set), found(2));
    assert_eq!(set, [0, 0, 1, 0, 1, 7]);
    assert_eq!(descendants_for(&two, &next[..5], 0, 3, &mut set), ImageReply { number: 27, place: 0, count: 0 });
    assert_eq!(descendants_for(&two, &[], 4, 3, &mut set), ImageReply { number: 36, place: 0, count: 0 });

    // 30 and 31, by every function, whatever else it is lent
    let mut owner = of(3);
    owner.numbers[17] = 3;
    let mut hall = of(1);
    hall.numbers[2] = 1;
    let mut tag = owner.clone();
    tag.numbers[19] = 65535;
    for (t, number, place) in [(&owner, 30, 5), (&hall, 30, 0), (&tag, 7, 6), (&of(0), 31, 0), (&of(3), 31, 0), (&of(257), 31, 0)] {
        let no_image = ImageReply { number, place, count: 0 };
        let (mut set, mut numbers, mut words, mut rows) = ([7; 9], [7; 20], [7; 30], [7; 4]);
        let mut cursor = Cursor { begun: 9, last: [900; 3] };
        assert_eq!(check_table(&t.numbers), if number == 31 { ACCEPTED } else { refused(number, place) });
        assert_eq!(seen(t, &mut numbers), MadeReply { number, place, count: 0 });
        assert_eq!(image_for(gz_forwards, t, &[], &[9], &[2], &mut set), no_image);
        assert_eq!(image_for(gz_backwards, t, &CHILD, &[], &[1; 5], &mut set), no_image);
        assert_eq!(pairs_for(t, &CHILD, &[], &mut set), refused(number, place));
        assert_eq!(pairs_bits_for(t, &CHILD, &[], &mut words), refused(number, place));
        assert_eq!(page_for(t, &[], 9, &mut cursor, &mut rows), PageReply { number, place, count: 0, more: false });
        let uncounted = QuickReply { number, place, count: 0, more: false, evaluations: 0 };
        assert_eq!(quick_page_for(t, &PALLETS, 2, &mut cursor, &mut rows), uncounted);
        let (next, tags) = numbers.split_at_mut(8);
        assert_eq!(index_for(t, next, tags), IndexReply { number, place, next: 0, tags: 0 });
        assert_eq!(descendants_for(t, &[], 900, 3, &mut set), no_image);
        assert_eq!((set, numbers, words, rows, cursor), ([7; 9], [7; 20], [7; 30], [7; 4], Cursor { begun: 9, last: [900; 3] }));
    }
}
