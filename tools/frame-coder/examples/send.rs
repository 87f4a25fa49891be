//! Sends a message and prints its energy and its frame, then reads the frame back both ways, and at kinds 3 to 5
//! from noisy samples too, and from the closer of two recordings; writes its record and reads that; and says what
//! energy it has with its last bits free, as many as are 0. By itself it sends 00 08 at kind 3, grade 1, under number 0; a kind, a grade, a number
//! and bytes in hexadecimal can be given:
//!
//!     cargo run --offline --example send -- 4 1 7 20 00 00 00 00

use std::error::Error;
use std::process::ExitCode;

use frame_coder::{
    closer, read_near_to_vec, read_open_to_vec, read_record_to_vec, read_strict_free_to_vec, read_strict_to_vec,
    send_free_to_vec, send_to_vec, write_record_to_vec, Grade, Kind, Refusal, MAX_FREE,
};

fn hexadecimal(message: &[u8]) -> String {
    message.iter().map(|byte| format!(" {byte:02x}")).collect()
}

fn run(words: &[&str]) -> Result<(), Box<dyn Error>> {
    let [kind, grade, number, bytes @ ..] = words else {
        return Err("give a kind, a grade, a number and bytes".into());
    };
    let (kind, grade, number) = (Kind::new(kind.parse()?)?, Grade::new(grade.parse()?)?, number.parse()?);
    let message = bytes.iter().map(|byte| u8::from_str_radix(byte, 16)).collect::<Result<Vec<u8>, _>>()?;

    let (frame, energy) = send_to_vec(kind, grade, number, &message)?;
    let coordinates: Vec<String> = frame.iter().map(i32::to_string).collect();
    println!("energy {energy}: {}", coordinates.join(" "));

    let (openly, _) = read_open_to_vec(kind, grade, &frame)?;
    println!("read openly:{}", hexadecimal(&openly));
    let (strictly, _) = read_strict_to_vec(kind, grade, number, &frame)?;
    println!("read strictly:{}", hexadecimal(&strictly));

    // Two recordings: every sample off by a quarter, and by an eighth.
    if let Some(limit) = kind.near_limit() {
        let [first, second] = [0.25, 0.125].map(|off| {
            let offs = [off, -off].into_iter().cycle();
            frame.iter().zip(offs).map(|(&x, off)| x as f32 + off).collect::<Vec<f32>>()
        });
        let chosen = closer(kind, grade, &first, &second)?;
        for (what, samples) in [("noisy samples", &first[..]), ("the closer of two recordings", chosen)] {
            let (nearly, distance) = read_near_to_vec(kind, grade, samples)?;
            println!("read from {what}:{}; squared distance {distance}, below {limit}", hexadecimal(&nearly));
        }
    }

    let record = write_record_to_vec(kind, grade, number, &message)?;
    println!("record:{}", hexadecimal(&record));
    let (carried, read) = read_record_to_vec(&record, 0)?;
    assert_eq!(carried, frame);
    println!("read from it: number {}, energy {}", read.number, read.energy);

    // Each of the last bits that is 0 can be left to the sender.
    for free in 1..=MAX_FREE {
        match send_free_to_vec(kind, grade, number, free, &message) {
            Ok((frame, energy)) => {
                let (fixed, _) = read_strict_free_to_vec(kind, grade, number, free, &frame)?;
                println!("with {free} free bits: energy {energy}, read strictly:{}", hexadecimal(&fixed));
            }
            Err(Refusal::SpareBits) => break,
            Err(refusal) => return Err(refusal.into()),
        }
    }
    Ok(())
}

fn main() -> ExitCode {
    let words: Vec<String> = std::env::args().skip(1).collect();
    let words: Vec<&str> = words.iter().map(String::as_str).collect();
    match run(if words.is_empty() { &["3", "1", "0", "00", "08"] } else { &words }) {
        Ok(()) => ExitCode::SUCCESS,
        Err(error) => {
            eprintln!("{error}");
            ExitCode::FAILURE
        }
    }
}
