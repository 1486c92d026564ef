//! A difference on fewer rows of words, then on smaller words: greedily, until nothing helps.

/// Fewer and smaller rows on which `fails` still holds, tried at most `tries` times. `without` takes
/// a row out; the words that name what the row gave are lowered by its last argument.
pub fn smallest<const N: usize>(
    mut rows: Vec<[u64; N]>,
    tries: usize,
    without: impl Fn(&[[u64; N]], usize, u64) -> Vec<[u64; N]>,
    fails: impl Fn(&[[u64; N]]) -> bool,
) -> Vec<[u64; N]> {
    let mut left = tries;
    let mut fails = |rows: &[[u64; N]]| {
        left = left.saturating_sub(1);
        left > 0 && fails(rows)
    };
    loop {
        let before = rows.clone();
        for n in (0..rows.len()).rev() {
            let fewer = [0, 1].map(|by| without(&rows, n, by));
            if let Some(fewer) = fewer.into_iter().find(|r| fails(r)) {
                rows = fewer;
            }
        }
        for n in 0..N * rows.len() {
            let old = rows[n / N][n % N];
            for new in smaller(old) {
                let mut one = rows.clone();
                one[n / N][n % N] = new;
                let equal = |w: u64| if w == old { new } else { w };
                let above = |w: u64| if w >= old { w - (old - new) } else { w };
                let all = rows.iter().map(|r| r.map(equal)).collect();
                let shifted = rows.iter().map(|r| r.map(above)).collect();
                let found = [one, all, shifted].into_iter().find(|r| fails(r));
                if let Some(found) = found {
                    rows = found;
                    break;
                }
            }
        }
        if rows == before {
            return rows;
        }
    }
}

/// Numbers to try in place of one.
fn smaller(word: u64) -> Vec<u64> {
    let mut all: Vec<u64> = vec![
        0,
        1,
        27,
        28,
        word / 2,
        word & (word >> 1),
        word.saturating_sub(1),
    ];
    all.extend((0..64).rev().map(|bit| word & !(1 << bit)));
    all.retain(|&w| w < word);
    all.dedup();
    all
}
