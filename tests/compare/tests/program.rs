//! The listing program prints what the reference lists: generated files, a small stack, slow pipes, and more input than any file has.

use compare::program::{prints, program, root, run};
use compare::shrink::keep;
use reference::calendar::fixed_holidays;
use reference::writer::{event_record, move_records};
use reference::{gen_file, gen_small_file, listing};
use std::fs::File;
use std::io::Write;
use std::process::{Command, Output, Stdio};
use std::thread::{scope, sleep};
use std::time::Duration;

const FILES: u64 = 1_200;
const LARGE: u64 = 4;
/// How many run at a time.
const LANES: u64 = 2;

/// It prints the listing and says nothing else.
fn agrees(output: &Output, file: &[u8]) -> bool {
    prints(output, &listing(file))
}

fn check(name: &str, file: &[u8]) {
    let output = run(&mut program(), file);
    if !agrees(&output, file) {
        let kept = keep(name, file, |smaller| !agrees(&run(&mut program(), smaller), smaller));
        let (expected, found) = (listing(file), output.stdout);
        let (expected, found) = (String::from_utf8_lossy(&expected), String::from_utf8_lossy(&found));
        panic!("{name}: {kept}\nexpected:\n{expected}\nfound ({}):\n{found}", output.status);
    }
}

#[test]
fn generated_files_are_listed() {
    let lane = |lane: u64| {
        let mut lines = 0;
        for seed in (lane..FILES).step_by(LANES as usize) {
            let file = if seed % LARGE == 0 { gen_file(seed) } else { gen_small_file(seed) };
            check(&format!("listing-{seed}"), &file);
            lines += listing(&file).iter().filter(|&&byte| byte == b'\n').count();
        }
        lines
    };
    let lines: usize = scope(|all| {
        let lanes: Vec<_> = (0..LANES).map(|number| all.spawn(move || lane(number))).collect();
        lanes.into_iter().map(|lane| lane.join().unwrap()).sum()
    });
    println!("{FILES} files listed, seeds 0 to {}, {lines} lines", FILES - 1);
    assert!(lines > 10_000);
}

/// A file of 16 moves, 128 days and 64 events, 50,536 bytes, with 96 lines for each event: every one is over the whole of the last day.
fn largest() -> Vec<u8> {
    const HEAD: usize = 8;
    const DAYS: usize = HEAD + 128 * 390;
    let moves: Vec<u32> = fixed_holidays()[..16].iter().flat_map(|&day| [day, day + 1]).collect();
    let whole_days = |file: Vec<u8>| {
        let last = file.get(DAYS - 388..DAYS - 386)?;
        let event = event_record(u16::from_le_bytes([last[0], last[1]]), 96, 192, 96);
        Some([&file[..HEAD], &move_records(&moves).concat(), &file[HEAD..DAYS], &event.repeat(64)].concat())
    };
    let lines = |file: &Vec<u8>| listing(file).iter().filter(|&&byte| byte == b'\n').count();
    let largest = (0..).map(gen_file).filter_map(whole_days).find(|file| lines(file) == 1 + 64 * 97).unwrap();
    assert_eq!(largest.len(), 50_536);
    largest
}

#[test]
fn a_small_stack_is_enough() {
    let file = largest();
    let mut command = Command::new("bash");
    let (runner, list) = (root("tests/x86"), root("build/bin/honeyplank-list"));
    command.args(["-c", "ulimit -s 1024 && exec \"$0\" run \"$1\""]).arg(runner).arg(list);
    command.env("QEMU_STACK_SIZE", "1048576");
    let output = run(&mut command, &file);
    assert!(agrees(&output, &file), "{output:?}");
}

/// The bytes come in small pieces, with pauses between them.
#[test]
fn slow_pipes_are_read() {
    let file = largest();
    let mut child = program().stdin(Stdio::piped()).stdout(Stdio::piped()).stderr(Stdio::piped()).spawn().unwrap();
    let mut pipe = child.stdin.take().unwrap();
    for (turn, piece) in file.chunks(97).enumerate() {
        pipe.write_all(piece).unwrap();
        if turn % 16 == 0 {
            sleep(Duration::from_millis(5));
        }
    }
    drop(pipe);
    let output = child.wait_with_output().unwrap();
    assert!(agrees(&output, &file), "{output:?}");
}

/// What comes after 50,537 bytes changes nothing.
#[test]
fn longer_input_is_listed_alike() {
    let mut file = largest();
    file.resize(1 << 20, b'E');
    let output = run(&mut program(), &file);
    assert!(agrees(&output, &file), "{output:?}");
}

/// A reader that goes away early: the program ends all the same, at the write that fails, and says so; also where SIGPIPE was not ignored before.
#[test]
fn a_closed_output_ends_it() {
    let path = std::env::temp_dir().join(format!("closed-{}", std::process::id()));
    std::fs::write(&path, largest()).unwrap();
    let said = "honeyplank-list: standard output: Broken pipe\n";
    for signal in ["-", "''"] {
        let mut command = Command::new("bash");
        let (runner, list) = (root("tests/x86"), root("build/bin/honeyplank-list"));
        let words = format!("trap {signal} PIPE && exec timeout 60 \"$0\" run \"$1\"");
        command.args(["-c", &words]).arg(runner).arg(list);
        let mut child = command.stdin(File::open(&path).unwrap()).stdout(Stdio::piped()).stderr(Stdio::piped()).spawn().unwrap();
        drop(child.stdout.take());
        let output = child.wait_with_output().unwrap();
        assert!(output.status.success() && output.stderr == said.as_bytes(), "trap {signal} PIPE: {output:?}");
    }
    std::fs::remove_file(&path).unwrap();
}
