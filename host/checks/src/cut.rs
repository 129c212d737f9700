//! Cutting a failing list down.

/// Drop elements while the rest still fails: halves first, then ever smaller
/// parts, at last single ones until none can go.
pub fn cut_down<T: Clone>(list: &[T], mut fails: impl FnMut(&[T]) -> bool) -> Vec<T> {
    let mut list = list.to_vec();
    let mut part = (list.len() / 2).max(1);
    loop {
        let (mut at, mut dropped) = (0, false);
        while at < list.len() {
            let end = (at + part).min(list.len());
            let rest = [&list[..at], &list[end..]].concat();
            if fails(&rest) {
                list = rest;
                dropped = true;
            } else {
                at = end;
            }
        }
        if part > 1 {
            part /= 2;
        } else if !dropped {
            return list;
        }
    }
}

#[test]
fn only_what_is_needed_remains() {
    let list: Vec<u32> = (0..1000).collect();
    let fails = |rest: &[u32]| rest.contains(&17) && rest.contains(&903);
    assert_eq!(cut_down(&list, fails), [17, 903]);
    assert_eq!(cut_down(&list, |_| true), []);
}
