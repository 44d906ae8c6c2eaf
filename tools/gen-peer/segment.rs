//! Segments: buffers, a tree of encodings, and the tree's length.

/// What the tree of one node with one buffer and its length take.
pub const TREE_ROOM: usize = 1 + 2 + 8 + 1 + 1 + 8 + 8 + 8;

pub const PLAIN: u16 = 0;
pub const CONSTANT: u16 = 1;
const STRUCT: u16 = 5;

/// Each buffer begins at a multiple of eight.
const PADDED: u8 = 1;

/// A segment of one node and one buffer, which moves.
pub fn of_cells(encoding: u16, mut cells: Vec<u8>, rows: u64) -> Vec<u8> {
    let len = cells.len();
    cells.push(PADDED);
    push_node(&mut cells, encoding, rows, Some(len), 0);
    close(cells, len)
}

/// A segment of a struct of plain columns.
pub fn of_struct(columns: &[Vec<u8>], rows: u64) -> Vec<u8> {
    let mut out = Vec::new();
    let mut tree = vec![PADDED];
    push_node(&mut tree, STRUCT, rows, None, columns.len() as u64);
    for cells in columns {
        out.resize(out.len().next_multiple_of(8), 0);
        out.extend_from_slice(cells);
        push_node(&mut tree, PLAIN, rows, Some(cells.len()), 0);
    }
    let end = out.len();
    out.append(&mut tree);
    close(out, end)
}

fn push_node(tree: &mut Vec<u8>, encoding: u16, rows: u64, buffer: Option<usize>, children: u64) {
    tree.extend_from_slice(&encoding.to_le_bytes());
    tree.extend_from_slice(&rows.to_le_bytes());
    tree.extend_from_slice(&[0, buffer.is_some() as u8]);
    if let Some(len) = buffer {
        tree.extend_from_slice(&(len as u64).to_le_bytes());
    }
    tree.extend_from_slice(&children.to_le_bytes());
}

/// Ends a segment whose tree begins there.
fn close(mut bytes: Vec<u8>, tree: usize) -> Vec<u8> {
    let len = (bytes.len() - tree) as u64;
    bytes.extend_from_slice(&len.to_le_bytes());
    bytes
}

/// A segment of one node and one buffer, as it is read.
pub struct Cells<'a> {
    pub encoding: u16,
    pub rows: u64,
    pub cells: &'a [u8],
}

/// Takes a segment of a plain or constant chunk apart; none where it is no such segment.
pub fn parse(bytes: &[u8]) -> Option<Cells<'_>> {
    let (rest, len) = bytes.split_last_chunk()?;
    let len = usize::try_from(u64::from_le_bytes(*len)).ok()?;
    let (cells, tree) = rest.split_at_checked(rest.len().checked_sub(len)?)?;
    let (flag, tree) = tree.split_first()?;
    let (encoding, tree) = tree.split_first_chunk()?;
    let (rows, tree) = tree.split_first_chunk()?;
    let (counts, tree) = tree.split_first_chunk::<2>()?;
    let (buffer, tree) = tree.split_first_chunk()?;
    let (children, tree) = tree.split_first_chunk()?;
    let whole =
        tree.is_empty() && *flag <= 1 && *counts == [0, 1] && u64::from_le_bytes(*children) == 0;
    let exact = u64::from_le_bytes(*buffer) == cells.len() as u64;
    (whole && exact).then_some(Cells {
        encoding: u16::from_le_bytes(*encoding),
        rows: u64::from_le_bytes(*rows),
        cells,
    })
}
