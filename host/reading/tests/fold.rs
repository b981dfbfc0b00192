//! Folds worked out by hand from request 14.

use reading::fold::{fold, folded};
use reading::log::{check, items, machine};

/// The log of these lines, with the `stop` that they come to.
fn log(lines: &str) -> String {
    let mut open: Vec<(u64, u64)> = vec![(1, 0)];
    for line in lines.lines() {
        match line.split_once('=') {
            Some(("wait", clocks)) => open.last_mut().unwrap().1 += clocks.parse::<u64>().unwrap(),
            Some(("loop", times)) => open.push((times.parse().unwrap(), 0)),
            Some(("done", _)) => {
                let (times, body) = open.pop().unwrap();
                open.last_mut().unwrap().1 += times * body;
            }
            _ => {}
        }
    }
    format!("log=1\n{lines}stop={}\n", open[0].1)
}

/// That the lines fold to these, and that the folded log passes and stands for the same.
fn folds(lines: &str, to: &str) {
    let (before, after) = (log(lines), log(to));
    let folded = String::from_utf8(folded(before.as_bytes()).unwrap()).unwrap();
    assert!(folded == after, "{}", &folded[folded.len().saturating_sub(300)..]);
    assert!(after.len() <= before.len());
    assert_eq!(items(before.as_bytes()), items(after.as_bytes()));
    assert_eq!(machine(before.as_bytes()), machine(after.as_bytes()));
    assert_eq!(check(before.as_bytes()).unwrap().clocks, check(after.as_bytes()).unwrap().clocks);
}

fn looped(copies: usize, lines: &str) -> String {
    format!("loop={copies}\n{lines}done=loop\n")
}

#[test]
fn shorter_only() {
    // Three waits are 21 bytes, their loop is 24; four are 28.
    folds(&"wait=1\n".repeat(3), &"wait=1\n".repeat(3));
    folds(&"wait=1\n".repeat(4), &looped(4, "wait=1\n"));
    // Two copies of 17 bytes are 34 and so is their loop; two of 18 are 36 and it is 35.
    folds(&"wait=1\nread=4015\n".repeat(2), &"wait=1\nread=4015\n".repeat(2));
    folds(&"wait=10\nread=4015\n".repeat(2), &looped(2, "wait=10\nread=4015\n"));
    // One more copy of a long line is not enough, two are.
    folds(&"write=4000:1f\n".repeat(2), &"write=4000:1f\n".repeat(2));
    folds(&"write=4000:1f\n".repeat(3), &looped(3, "write=4000:1f\n"));
}

#[test]
fn the_smallest_p_with_all_its_copies() {
    // p 1 comes first where it is shorter, else p 2.
    let pair = "wait=5\nwait=5\n";
    folds(&pair.repeat(3), &looped(6, "wait=5\n"));
    let aab = "write=4011:00\nwrite=4011:00\nwrite=4011:7f\n";
    folds(&aab.repeat(5), &looped(5, aab));
    // Three of a kind fold before the pattern that they begin; behind them another pattern is found.
    let aaab = format!("{}write=4011:7f\n", "write=4011:00\n".repeat(3));
    let baaa = format!("write=4011:7f\n{}", "write=4011:00\n".repeat(3));
    let folded = format!("{}{}write=4011:7f\n", looped(3, "write=4011:00\n"), looped(3, &baaa));
    folds(&aaab.repeat(4), &folded);
    // What comes behind the last whole copy stays.
    folds(&format!("{}wait=7\n", aab.repeat(2)), &format!("{}wait=7\n", looped(2, aab)));
}

#[test]
fn sixteen_lines_and_no_more() {
    let lines = |count: usize| (0..count).map(|i| format!("write=4002:{i:02x}\n")).collect::<String>();
    folds(&lines(16).repeat(3), &looped(3, &lines(16)));
    folds(&lines(17).repeat(3), &lines(17).repeat(3));
}

#[test]
fn at_most_255_copies() {
    let read = "read=4015\n";
    folds(&read.repeat(255), &looped(255, read));
    folds(&read.repeat(256), &format!("{}{read}", looped(255, read)));
    folds(&read.repeat(258), &format!("{}{}", looped(255, read), looped(3, read)));
    folds(&read.repeat(510), &looped(255, read).repeat(2));
}

#[test]
fn loops_that_are_there_are_copied() {
    let read = "read=4015\n".repeat(9);
    folds(&looped(2, &read), &looped(2, &read));
    let beside = format!("{read}{}{read}", looped(2, &read));
    let nine = looped(9, "read=4015\n");
    folds(&beside, &format!("{nine}{}{nine}", looped(2, &read)));
    // Copies on both sides of a loop are not one after the other.
    let apart = format!("{0}{1}{0}", "read=4015\n".repeat(2), looped(2, ""));
    folds(&apart, &apart);
    let nested = looped(2, &format!("{read}{}{read}", looped(3, &read)));
    folds(&format!("{nested}{read}"), &format!("{nested}{nine}"));
}

#[test]
fn a_pal_log_stays_one() {
    folds(&format!("machine=pal\n{}", "wait=1\n".repeat(9)), &format!("machine=pal\n{}", looped(9, "wait=1\n")));
}

#[test]
fn turns() {
    // 250 x (1 + 199 x (1 + 19)) are 995,250 turns; with `reads` more and 3 of a kind.
    let filler = |reads: usize| {
        let reads = "read=4015\nwait=1\n".repeat(reads / 2) + &"write=4015:00\n".repeat(reads % 2);
        format!("loop=250\nloop=199\nloop=19\ndone=loop\ndone=loop\ndone=loop\nloop=2\n{reads}done=loop\n")
    };
    let three = "write=4000:1f\n".repeat(3);
    // 995,250 + 2 x (1 + 2372) + 3 are 999,999, a loop of 3 copies would make 1,000,002 of them.
    folds(&format!("{}{three}", filler(2372)), &format!("{}{three}", filler(2372)));
    // 2 less: 999,997 + 3 is 1,000,000, which is allowed.
    let folded = looped(3, "write=4000:1f\n");
    folds(&format!("{}{three}", filler(2371)), &format!("{}{folded}", filler(2371)));
    // A second fold has no turn left.
    folds(&format!("{}{three}wait=1\n{three}", filler(2369)), &format!("{}{folded}wait=1\n{three}", filler(2369)));
    // A p that is passed over leaves the next: 12 lines are 12 copies of one, 6 of two, 4 of three, 3 of four, 2 of five.
    let twelve = "write=4000:1f\n".repeat(12);
    let five = format!("{}{}", looped(2, &"write=4000:1f\n".repeat(5)), "write=4000:1f\n".repeat(2));
    // 995,250 + 2 x (1 + 2367) + 12 are 999,998.
    folds(&format!("{}{twelve}", filler(2367)), &format!("{}{five}", filler(2367)));
}

#[test]
fn answers() {
    let before = format!("log=1\n{}stop=0\n", "read=4015\n".repeat(5));
    let after = "log=1\nloop=5\nread=4015\ndone=loop\nstop=0\n";
    let n = before.len();
    for size in [n, n + 9] {
        let mut text = vec![b'?'; size];
        assert_eq!(fold(before.as_bytes(), &mut text), (after.len() as u64) << 32);
        assert_eq!(text, [after.as_bytes(), &vec![b'?'; size - after.len()]].concat());
    }
    // 32 goes by the original's length.
    for size in [0, after.len(), n - 1] {
        let mut text = vec![b'?'; size];
        assert_eq!(fold(before.as_bytes(), &mut text), 32);
        assert_eq!(text, vec![b'?'; size]);
    }
    // The log's own refusals come first.
    assert_eq!(fold(b"log=1\nwait=5\nstop=4\n", &mut []), 10 | 13 << 8);
    assert_eq!(fold(b"", &mut []), 18);
    assert_eq!(fold(&[b'x'; 60_001], &mut []), 5);
}
