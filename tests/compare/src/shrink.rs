//! A smaller file that still fails, kept under build/failures/.

use reference::moves::MOST_MOVES;
use reference::record::{MV_LENGTH, PF_LENGTH};
use std::path::PathBuf;
use std::time::{Duration, Instant};

/// How long smaller files are tried.
const LONGEST: Duration = Duration::from_secs(20);

/// Takes out moves, then ever smaller stretches, then sets bytes to zero, as long as the file still fails.
pub fn shrink(file: &[u8], fails: impl Fn(&[u8]) -> bool) -> Vec<u8> {
    let mut best = file.to_vec();
    let began = Instant::now();
    let attempt = |best: &mut Vec<u8>, smaller: Vec<u8>| {
        if began.elapsed() < LONGEST && fails(&smaller) {
            *best = smaller;
        }
    };
    for place in (0..MOST_MOVES).rev() {
        let at = PF_LENGTH + MV_LENGTH * place;
        if best.get(at..).is_some_and(|rest| rest.starts_with(b"MV")) {
            let smaller = [&best[..at], &best[(at + MV_LENGTH).min(best.len())..]].concat();
            attempt(&mut best, smaller);
        }
    }
    for stretch in [390 * 64, 390 * 16, 390 * 4, 390, 8, 6, 1] {
        let mut at = best.len();
        while at > 0 {
            at = at.saturating_sub(stretch);
            for at in [at, at + 8] {
                let end = (at + stretch).min(best.len());
                if at < end {
                    let smaller = [&best[..at], &best[end..]].concat();
                    attempt(&mut best, smaller);
                }
            }
        }
    }
    for at in 0..best.len() {
        if best[at] != 0 {
            let mut zeroed = best.clone();
            zeroed[at] = 0;
            attempt(&mut best, zeroed);
        }
    }
    best
}

/// Shrinks a file that fails, keeps it under this name, and says where.
pub fn keep(name: &str, file: &[u8], fails: impl Fn(&[u8]) -> bool) -> String {
    let folder = PathBuf::from(concat!(env!("CARGO_MANIFEST_DIR"), "/../../build/failures"));
    let small = shrink(file, fails);
    let path = folder.join(format!("{name}.rec"));
    let kept = std::fs::create_dir_all(&folder).and_then(|()| std::fs::write(&path, &small));
    let from = file.len();
    match kept {
        Ok(()) => format!("{} bytes of {from} are kept in build/failures/{name}.rec", small.len()),
        Err(error) => format!("not kept: {error}: {small:?}"),
    }
}
