//! A list made short: entries are taken out as long as what it shows stays.

/// The list with as many entries taken out as can be. `shows` holds of the list given.
pub fn shrink<T: Clone>(list: &[T], shows: impl Fn(&[T]) -> bool) -> Vec<T> {
    let mut list = list.to_vec();
    let mut size = list.len();
    while size > 0 {
        // From the end: later entries lean on earlier ones.
        let mut end = list.len();
        while end > 0 {
            let start = end.saturating_sub(size);
            let mut shorter = list[..start].to_vec();
            shorter.extend_from_slice(&list[end..]);
            if shows(&shorter) {
                list = shorter;
            }
            end = start;
        }
        size /= 2;
    }
    list
}

#[cfg(test)]
mod tests {
    use super::shrink;

    #[test]
    fn keeps_what_is_needed() {
        let list: Vec<usize> = (0..100).collect();
        let shows = |list: &[usize]| list.contains(&17) && list.contains(&80);
        assert_eq!(shrink(&list, shows), [17, 80]);
    }
}
