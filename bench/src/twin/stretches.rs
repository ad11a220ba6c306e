//! The least coordinate of a stretch, by a table for stretches of 1, 2, 4 and so on places.

pub const LEVELS: usize = 13;

/// Fills the table of a word of `width` letters whose coordinates are its first row.
pub fn fill_table(width: usize, table: &mut [u32]) {
    let mut size = 1;
    for level in 1..LEVELS {
        let (done, rest) = table.split_at_mut(level * width);
        let row = &done[(level - 1) * width..];
        for (j, out) in rest[..width].iter_mut().enumerate() {
            *out = match row.get(j + size) {
                Some(&there) => row[j].min(there),
                None => row[j],
            };
        }
        size *= 2;
    }
}

fn least(width: usize, table: &[u32], from: usize, to: usize) -> u32 {
    let level = (to - from).ilog2() as usize;
    let row = level * width;
    table[row + from].min(table[row + to - (1 << level)])
}

/// Up to which level the end parts at two places agree.
pub fn between(width: usize, table: &[u32], here: usize, there: usize) -> u32 {
    if here < there {
        least(width, table, here, there)
    } else if there < here {
        least(width, table, there, here)
    } else {
        width as u32 + 2
    }
}
