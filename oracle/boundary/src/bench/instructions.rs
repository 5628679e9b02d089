//! `boundary instructions`: each side of each row once, in a process of its own under callgrind, which counts what `jumperloft_counted` runs.

use super::ours::Ours;
use super::row::{rows, Row};
use super::table::{instructions_table, Counted};
use super::{runner, Choice, Side, EVERY_ROW, SIDES};
use std::path::Path;
use std::process::{Command, Stdio};
use std::{env, fs, process};

/// What is counted, by the name that callgrind is told.
#[no_mangle]
#[inline(never)]
pub extern "Rust" fn jumperloft_counted(work: &mut dyn FnMut()) {
    work();
}

/// Our side's audit, as an empty batch before the batch; a name beside those of the sides.
const AUDIT: &str = "Audit";

/// Prints the table; answers whether callgrind could count.
pub fn instructions(choice: Choice) -> bool {
    let mut counted = Vec::new();
    for row in choice.rows() {
        let of = |side: &str| counted_in_process(row, side, choice.im_rc);
        let sides = SIDES.map(|side| of(&format!("{side:?}")));
        let [Some(ours), original, im_rc, flat] = sides else {
            println!("{}: callgrind counted nothing", row.title());
            return false;
        };
        counted.push(Counted {
            row,
            ours,
            audit: of(AUDIT),
            original,
            im_rc,
            flat,
        });
    }
    print!("{}", instructions_table(&counted));
    !counted.is_empty()
}

/// Nothing where the side has no such row.
fn counted_in_process(row: Row, side: &str, im_rc: Option<&str>) -> Option<f64> {
    let out = env::temp_dir().join(format!("jumperloft-callgrind-{}", process::id()));
    let ran = Command::new("valgrind")
        .args(["--tool=callgrind", "--quiet", "--collect-atstart=no"])
        .arg("--toggle-collect=jumperloft_counted")
        .arg(format!("--callgrind-out-file={}", out.display()))
        .arg(env::current_exe().ok()?)
        .args(["count", &row.title(), side])
        .args(im_rc)
        .stdout(Stdio::null())
        .status();
    let total = match ran {
        Ok(status) if status.success() => total(&out),
        _ => None,
    };
    // it is not there where nothing ran
    let _ = fs::remove_file(&out);
    total
}

fn total(out: &Path) -> Option<f64> {
    let text = fs::read_to_string(out).ok()?;
    let total = text.lines().find_map(|line| line.strip_prefix("totals: "));
    total?.trim().parse().ok()
}

/// One run of one side, for callgrind; answers whether there is such a row.
pub fn count(title: &str, side: &str, im_rc: Option<&str>) -> bool {
    let Some(row) = rows().into_iter().find(|row| row.title() == title) else {
        return false;
    };
    if side == AUDIT {
        Ours::new(row).audit();
        return !row.is_by_call();
    }
    let side = SIDES.into_iter().find(|it| format!("{it:?}") == side);
    let library = Choice { im_rc, ..EVERY_ROW }.library();
    let Some(mut runner) = side.and_then(|side: Side| runner(row, side, library)) else {
        return false;
    };
    jumperloft_counted(&mut || runner.run());
    true
}
