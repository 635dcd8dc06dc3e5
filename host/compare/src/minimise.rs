//! Makes a failing script short.

/// Drops parts of a failing list while it still fails; in the end no single entry can be dropped.
///
/// Parts are tried from the list's end, first halves, then ever smaller ones.
pub fn minimise<T: Copy>(entries: Vec<T>, mut fails: impl FnMut(&[T]) -> bool) -> Vec<T> {
    let mut kept = entries;
    let mut size = kept.len().div_ceil(2).max(1);
    loop {
        let is_shorter = drop_parts(&mut kept, size, &mut fails);
        if size > 1 {
            size = size.div_ceil(2);
        } else if !is_shorter {
            return kept;
        }
    }
}

/// Tries to drop each part of `size` entries; tells whether one was dropped.
fn drop_parts<T: Copy>(kept: &mut Vec<T>, size: usize, fails: &mut impl FnMut(&[T]) -> bool) -> bool {
    let mut is_shorter = false;
    let mut end = kept.len();
    while end > 0 {
        let start = end.saturating_sub(size);
        let fewer = [&kept[..start], &kept[end..]].concat();
        if fails(&fewer) {
            *kept = fewer;
            is_shorter = true;
        }
        end = start;
    }
    is_shorter
}

#[cfg(test)]
mod tests {
    use super::*;

    #[test]
    fn what_is_needed_stays_in_its_order() {
        let fails = |list: &[u32]| {
            let place = |entry| list.iter().position(|&kept| kept == entry);
            matches!((place(17), place(901)), (Some(first), Some(second)) if first < second)
        };
        assert_eq!(minimise((0..1000).collect(), fails), [17, 901]);
    }

    #[test]
    fn a_count_is_brought_to_its_least() {
        let odd = |list: &[u32]| list.iter().filter(|&&entry| entry % 2 == 1).count() >= 3;
        let kept = minimise((0..100).collect(), odd);
        assert_eq!(kept.len(), 3);
        assert!(odd(&kept));
    }

    #[test]
    fn a_list_that_always_fails_becomes_empty() {
        assert!(minimise(vec![1, 2, 3], |_| true).is_empty());
        assert!(minimise(Vec::<u8>::new(), |_| true).is_empty());
    }

    #[test]
    fn a_list_that_needs_everything_stays() {
        let all: Vec<u32> = (0..9).collect();
        assert_eq!(minimise(all.clone(), |list| list.len() == 9), all);
    }
}
