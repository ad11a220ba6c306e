//! The coordinates of the places of a word of ranks.

/// Puts a rank in front of the word that was seen, and gives its coordinate there.
pub fn put_in_front(vector: &mut [u32], rank: u32) -> u32 {
    let coordinate = vector[rank as usize];
    for x in vector.iter_mut() {
        *x = (*x).min(coordinate + 1);
    }
    vector[rank as usize] = coordinate + 1;
    coordinate
}

/// Writes the right coordinates.
pub fn write_rights(word: &[u32], vector: &mut [u32], out: &mut [u32]) {
    vector.fill(1);
    for (out, &rank) in out.iter_mut().zip(word).rev() {
        *out = put_in_front(vector, rank);
    }
}

/// Writes the left coordinates.
pub fn write_lefts(word: &[u32], vector: &mut [u32], out: &mut [u32]) {
    vector.fill(1);
    for (out, &rank) in out.iter_mut().zip(word) {
        *out = put_in_front(vector, rank);
    }
}
