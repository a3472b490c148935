//! Makes a list small: parts are left out as long as what was to be shown
//! remains.

/// Leaves out ever smaller stretches of the items while `remains` says yes of
/// what is left.
pub fn reduce<T: Clone>(items: &[T], remains: &mut dyn FnMut(&[T]) -> bool) -> Vec<T> {
    let mut kept = items.to_vec();
    let mut stretch = kept.len().div_ceil(2);
    while stretch > 0 {
        let mut left_out = false;
        let mut begin = 0;
        while begin < kept.len() {
            let end = (begin + stretch).min(kept.len());
            let rest = [&kept[..begin], &kept[end..]].concat();
            if remains(&rest) {
                kept = rest;
                left_out = true;
            } else {
                begin = end;
            }
        }
        if !left_out || stretch > 1 {
            stretch /= 2;
        }
    }
    kept
}
