//! The second coder's modes: `vectors`, `listing`, `sheets PROGRAM`, `compare PROGRAM COUNT SEED`.

use std::io::{Read, Write};
use std::path::{Path, PathBuf};
use std::process::{Command, ExitCode, Stdio};

use second_coder::{
    calls, free_file, noisy, pairs, queues, random::Random, records_file, sheet, test_file::TestFile, vectors,
};

/// Where a file for a crate stands: beside the program that holds the library to it.
fn crates(name: &str) -> PathBuf {
    Path::new(env!("CARGO_MANIFEST_DIR")).join("../../crates").join(name)
}

/// Writes the data file of a test program, and what the program has to print.
fn write_test(program: &str, name: &str, file: &TestFile) -> std::io::Result<()> {
    std::fs::write(crates(program).join("data").join(name), &file.bytes)?;
    std::fs::write(crates(program).join("stdout"), file.printed())
}

/// Writes the files for the crates, and prints what is in them.
fn write_files() -> std::io::Result<()> {
    let all = vectors::all_messages();
    let (file, counts, wrong) = vectors::vectors(&all);
    write_test("test_vectors", "vectors.bin", &file)?;
    println!("| kind | grade | messages | with ties | most frames of least energy |");
    println!("|---|---|---|---|---|");
    for count in &counts {
        println!("| {} | {} | {} | {} | {} |", count.kind, count.grade, count.messages, count.tied, count.most);
    }
    // Each message stands there under an even and an odd number.
    let vectors: usize = counts.iter().map(|count| 2 * count.messages).sum();
    let tied: usize = counts.iter().map(|count| 2 * count.tied).sum();
    let bytes = file.bytes.len();
    println!("\nvectors.bin: {vectors} vectors, {tied} with ties, and {wrong} wrong ones, {bytes} bytes");
    let (file, sorts) = vectors::ways(&all);
    write_test("test_ways", "ways.bin", &file)?;
    let bytes = file.bytes.len();
    println!("ways.bin: {sorts:?} messages of each sort, the refused and those of a wrong sort last, {bytes} bytes");
    let sheets = vectors::sheet_file();
    std::fs::write(crates("test_sheet/data/sheets.bin"), &sheets)?;
    println!("sheets.bin: {} sheets, {} bytes", vectors::sheets().len(), sheets.len());
    for (name, sheet) in vectors::files() {
        std::fs::write(crates("test_sheet/data").join(name), &sheet)?;
        println!("{name}: {} bytes", sheet.len());
    }
    let printed = vectors::sheet_listings();
    std::fs::write(crates("test_sheet/stdout"), &printed)?;
    println!("test_sheet/stdout: {} bytes", printed.len());
    let (file, calls::Counts { sorts, functions, numbers, wrong }) = calls::call_file();
    write_test("test_calls", "calls.bin", &file)?;
    println!(
        "calls.bin: {sorts:?}, {functions:?} calls of each function, {numbers:?} answered by each number, {wrong} with a wrong answer, {} bytes",
        file.bytes.len()
    );
    let (file, queues::Counts { sorts, numbers, wrong }) = queues::queue_file();
    write_test("test_queue", "queues.bin", &file)?;
    let bytes = file.bytes.len();
    println!("queues.bin: {sorts:?}, {numbers:?} answered by each number, {wrong} with a wrong answer, {bytes} bytes");
    let (file, noisy::Counts { sorts, numbers, wrong }) = noisy::noisy_file();
    write_test("test_near", "noisy.bin", &file)?;
    let bytes = file.bytes.len();
    println!("noisy.bin: {sorts:?}, {numbers:?} answered by each number, {wrong} with a wrong answer, {bytes} bytes");
    let (file, pairs::Counts { sorts, numbers, chosen, wrong }) = pairs::pairs_file();
    write_test("test_recordings", "pairs.bin", &file)?;
    println!(
        "pairs.bin: {sorts:?}, {numbers:?} answered by each number, {chosen:?} with none, the first and the second handed back, {wrong} with a wrong answer, {} bytes",
        file.bytes.len()
    );
    let (file, free_file::Counts { sorts, sent, counted, open, strict, ties, wrong }) = free_file::free_file();
    write_test("test_free", "free.bin", &file)?;
    println!("\n| kind | grade | records, by free count | with several least fillings | most least fillings |");
    println!("|---|---|---|---|---|");
    for free_file::Count { kind, grade, records, tied, most } in &ties {
        let list = |all: &[usize]| all.iter().map(usize::to_string).collect::<Vec<_>>().join(", ");
        println!("| {kind} | {grade} | {} | {} | {} |", list(records), list(&tied[1..]), list(&most[1..]));
    }
    let bytes = file.bytes.len();
    println!("\nfree.bin: {sorts:?}, {wrong} wrong ones, {bytes} bytes; answered by each number: {sent:?} sent, {counted:?} with an account, {open:?} read openly, {strict:?} strictly");
    let (file, records_file::Counts { sorts, calls, writer, reader, wrong }) = records_file::records_file();
    write_test("test_records", "records.bin", &file)?;
    let bytes = file.bytes.len();
    println!("records.bin: {sorts:?}, {calls:?} writings, readings and lengths, {wrong} with a wrong answer, {bytes} bytes; answered by each number: {writer:?} written, {reader:?} read");
    let sheet = vectors::program_sheet();
    let listing = sheet::listing(&sheet);
    std::fs::write(crates("sheet/stdin"), &sheet)?;
    std::fs::write(crates("sheet/stdout"), &listing)?;
    println!("sheet/stdin: {} bytes; sheet/stdout: {} lines", sheet.len(), listing.lines().count());
    Ok(())
}

/// What a program writes, given a sheet on its standard input.
fn run(program: &str, sheet: &[u8]) -> std::io::Result<(Vec<u8>, bool)> {
    let mut child = Command::new(program).stdin(Stdio::piped()).stdout(Stdio::piped()).spawn()?;
    let mut input = child.stdin.take().expect("standard input is piped");
    let sheet = sheet.to_vec();
    // A program may end before it has read a long sheet whole; the pipe then breaks, rightly.
    let writer = std::thread::spawn(move || drop(input.write_all(&sheet)));
    let output = child.wait_with_output()?;
    writer.join().expect("the writer ends");
    Ok((output.stdout, output.status.success()))
}

/// Runs the program on sheets and compares with their listings; gives the number of differences.
fn judge(program: &str, sheets: impl Iterator<Item = (Vec<u8>, String)>) -> std::io::Result<u64> {
    let (mut count, mut different, mut failed) = (0, 0, 0);
    for (sheet, expected) in sheets {
        let (text, success) = run(program, &sheet)?;
        failed += !success as u64;
        if text != expected.as_bytes() {
            different += 1;
            let text = String::from_utf8_lossy(&text);
            let line = expected.lines().zip(text.lines()).take_while(|(a, b)| a == b).count();
            println!("sheet {count} ({} bytes) differs at line {}", sheet.len(), line + 1);
            println!("  expected {:?}", expected.lines().nth(line));
            println!("  written  {:?}", text.lines().nth(line));
            if sheet.len() <= 200 {
                println!("  sheet {}", sheet.iter().map(|b| format!("{b:02X} ")).collect::<String>());
            }
        }
        count += 1;
    }
    println!("{count} sheets, {different} different; exit status not 0: {failed}");
    Ok(different)
}

/// Fresh sheets, with what this coder lists for them.
fn compare(program: &str, count: u64, seed: u64) -> std::io::Result<u64> {
    let mut random = Random::new(seed);
    judge(
        program,
        (0..count).map(|_| {
            let sheet = vectors::random_sheet(&mut random);
            let listing = sheet::listing(&sheet);
            (sheet, listing)
        }),
    )
}

/// The sheets of sheets.bin, with what this coder lists for them.
fn stored(program: &str) -> std::io::Result<u64> {
    let listed = |sheet: Vec<u8>| {
        let listing = sheet::listing(&sheet);
        (sheet, listing)
    };
    judge(program, vectors::sheets().into_iter().map(listed))
}

fn main() -> ExitCode {
    let arguments: Vec<String> = std::env::args().skip(1).collect();
    let words: Vec<&str> = arguments.iter().map(String::as_str).collect();
    let result = match words[..] {
        ["vectors"] => write_files().map(|()| 0),
        ["listing"] => {
            let mut bytes = Vec::new();
            std::io::stdin()
                .read_to_end(&mut bytes)
                .and_then(|_| std::io::stdout().write_all(sheet::listing(&bytes).as_bytes()))
                .map(|()| 0)
        }
        ["compare", program, count, seed] => match (count.parse(), seed.parse()) {
            (Ok(count), Ok(seed)) => compare(program, count, seed),
            _ => Err(std::io::Error::other("COUNT and SEED are numbers")),
        },
        ["sheets", program] => stored(program),
        _ => Err(std::io::Error::other(
            "usage: second-coder vectors | listing | sheets PROGRAM | compare PROGRAM COUNT SEED",
        )),
    };
    match result {
        Ok(0) => ExitCode::SUCCESS,
        Ok(_) => ExitCode::FAILURE,
        Err(error) => {
            eprintln!("{error}");
            ExitCode::FAILURE
        }
    }
}
