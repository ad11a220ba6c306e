//! Partners: how the places of two words are set against each other. A place is held as one more; 0 is none.

/// For each place its sibling, the next place before it that is no deeper, if that is as deep.
pub fn find_siblings(depths: &[u32], stack: &mut [u32], siblings: &mut [u32]) {
    siblings.fill(0);
    stack[0] = depths.len() as u32;
    let mut below = 0;
    for (j, &depth) in depths.iter().enumerate().rev() {
        if depth <= below {
            siblings[stack[depth as usize] as usize] = j as u32 + 1;
        }
        stack[depth as usize] = j as u32;
        below = depth;
    }
}

/// For each place of one word its partner in the other.
pub fn find_partners(
    own: &[u32],
    other: &[u32],
    siblings: &[u32],
    stack: &mut [u32],
    partners: &mut [u32],
) {
    partners[own.len()] = other.len() as u32 + 1;
    stack[0] = own.len() as u32;
    let mut below = 0;
    for (i, &depth) in own.iter().enumerate().rev() {
        partners[i] = if depth <= below {
            match partners[stack[depth as usize] as usize] {
                0 => 0,
                above => siblings[above as usize - 1],
            }
        } else {
            match partners[i + 1] {
                above if above >= 2 && other[above as usize - 2] == depth => above - 1,
                _ => 0,
            }
        };
        stack[depth as usize] = i as u32;
        below = depth;
    }
}
