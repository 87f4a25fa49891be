//! Records, as request E11 of document 02 has them, through the static library.

use frame_coder::{
    by_number, message_length, read_record, read_record_to_vec, read_strict_to_vec, records, send_to_vec, write_record,
    write_record_to_vec, Grade, Kind, Record, Recorded, Refusal, RefusedRecord, MAX_COORDINATE, MAX_RECORD_LENGTH,
};

/// Numbers of both parities, at both ends.
const NUMBERS: [u32; 6] = [0, 1, (1 << 31) - 1, 1 << 31, u32::MAX - 1, u32::MAX];

fn formats() -> impl Iterator<Item = (Kind, Grade)> {
    Kind::ALL.iter().flat_map(|&kind| Grade::ALL.iter().map(move |&grade| (kind, grade)))
}

/// A message of a seed; every third one is zeros but for its last bit, so that its frame hangs on the number.
fn message(kind: Kind, grade: Grade, seed: usize) -> Vec<u8> {
    let length = message_length(kind, grade);
    let last = if kind < Kind::Five { 0x0F } else { 0xFF };
    let mut message = vec![0; length];
    if seed % 3 == 1 {
        message[length - 1] = last ^ last >> 1;
    } else {
        message.iter_mut().zip(seed..).for_each(|(byte, i)| *byte = (37 * i * (i + seed + 1) % 251) as u8);
        message[length - 1] &= last;
    }
    message
}

/// The record of a frame, sent or not, made here.
fn record(kind: u8, grade: u8, number: u32, frame: &[i32]) -> Vec<u8> {
    let mut record = vec![0x4C, 0x46, kind, grade];
    record.extend(number.to_le_bytes());
    record.extend(frame.iter().flat_map(|x| x.to_le_bytes()));
    record
}

/// What is to be read at a place, by the strict reading.
fn by_strict_reading(buffer: &[u8], place: usize, length: usize) -> Result<(Vec<i32>, Record), Refusal> {
    let record = buffer.get(place..).unwrap_or(&[]);
    if !record.starts_with(&[0x4C, 0x46]) {
        return Err(Refusal::Mark);
    }
    let kind = Kind::new(*record.get(2).ok_or(Refusal::RecordEnd)?)?;
    let grade = Grade::new(*record.get(3).ok_or(Refusal::RecordEnd)?)?;
    if length != kind.frame_length() {
        return Err(Refusal::FrameLength);
    }
    let record = record.get(4..kind.record_length()).ok_or(Refusal::RecordEnd)?;
    let numbers: Vec<u32> = record.chunks(4).map(|four| u32::from_le_bytes(four.try_into().unwrap())).collect();
    let frame: Vec<i32> = numbers[1..].iter().map(|&x| x as i32).collect();
    let (_, energy) = read_strict_to_vec(kind, grade, numbers[0], &frame)?;
    Ok((frame, Record { kind, grade, number: numbers[0], energy, next: place + kind.record_length() }))
}

/// Reads at a place into so many coordinates, and sees that it is what the strict reading says, and that a refusal leaves them.
fn read(buffer: &[u8], place: usize, length: usize) -> Result<Record, Refusal> {
    let expected = by_strict_reading(buffer, place, length);
    let mut frame = vec![1000; length];
    let answer = read_record(buffer, place, &mut frame);
    match expected {
        Ok((own, record)) => {
            assert_eq!(answer, Ok(record));
            assert_eq!(frame, own);
            assert_eq!(read_record_to_vec(buffer, place), Ok((own, record)));
        }
        Err(refusal) => {
            assert_eq!(answer, Err(refusal));
            assert_eq!(frame, vec![1000; length]);
        }
    }
    answer
}

/// 00 08 of document 01, under an even number and an odd one, byte for byte.
#[test]
fn by_hand() {
    let even = [0x4C, 0x46, 0x03, 0x01, 0xFE, 0xFF, 0xFF, 0xFF, 0xFC, 0xFF, 0xFF, 0xFF];
    let odd = [0x4C, 0x46, 0x03, 0x01, 0x01, 0x00, 0x00, 0x00, 0x04, 0x00, 0x00, 0x00];
    for (number, begin, first) in [(4_294_967_294, even, -4), (1, odd, 4)] {
        let record = [&begin[..], &[0; 28]].concat();
        let (kind, grade) = (Kind::Three, Grade::One);
        assert_eq!(write_record_to_vec(kind, grade, number, &[0x00, 0x08]), Ok(record.clone()));
        let read = Record { kind, grade, number, energy: 16, next: 40 };
        assert_eq!(read_record_to_vec(&record, 0), Ok((vec![first, 0, 0, 0, 0, 0, 0, 0], read)));
    }
}

#[test]
fn lengths() {
    for kind in 0..=255 {
        assert_eq!(by_number::record_length(kind), Kind::new(kind).map_or(0, Kind::record_length));
    }
    assert_eq!(MAX_RECORD_LENGTH, 264);
}

/// Every place of a buffer, past its end too, and the last of all numbers.
#[test]
fn places() {
    for (seed, (kind, grade)) in formats().enumerate() {
        let (whole, message) = (kind.record_length(), message(kind, grade, seed));
        for number in NUMBERS {
            let (frame, _) = send_to_vec(kind, grade, number, &message).unwrap();
            let own = record(kind.number(), grade.number(), number, &frame);
            for length in [0, 1, whole - 1, whole, whole + 5] {
                let far = [usize::MAX, usize::MAX - 7, usize::MAX - 8, usize::MAX - whole + 1, usize::MAX / 2];
                for place in (0..length + 3).chain(far) {
                    let before: Vec<u8> = (0..length).map(|i| (7 * i + 1) as u8).collect();
                    let mut buffer = before.clone();
                    let answer = write_record(kind, grade, number, &message, &mut buffer, place);
                    if place <= length && length - place >= whole {
                        assert_eq!(answer, Ok(place + whole));
                        let around = [&before[..place], &own, &before[place + whole..]].concat();
                        assert_eq!(buffer, around);
                        assert_eq!(read(&buffer, place, frame.len()).map(|read| read.next), answer);
                    } else {
                        assert_eq!(answer, Err(Refusal::RecordEnd));
                        assert_eq!(buffer, before);
                        assert_eq!(read(&buffer, place, frame.len()), Err(Refusal::Mark));
                    }
                }
            }
        }
    }
}

/// A record cut short at each of its bytes, and read into frames of other lengths.
#[test]
fn cut_short() {
    for (kind, grade) in formats() {
        let own = write_record_to_vec(kind, grade, 1, &message(kind, grade, 1)).unwrap();
        let length = kind.frame_length();
        for left in 0..own.len() {
            let cut = if left < 2 { Refusal::Mark } else { Refusal::RecordEnd };
            assert_eq!(read(&own[..left], 0, length), Err(cut));
            assert_eq!(read_record_to_vec(&own[..left], 0), Err(cut));
            let other = if left < 4 { cut } else { Refusal::FrameLength };
            for length in [0, length - 1, length + 1, 2 * length] {
                assert_eq!(read(&own[..left], 0, length), Err(other));
            }
        }
    }
}

#[test]
fn writing_refused_in_order() {
    for (kind, grade) in formats() {
        let bytes = message_length(kind, grade);
        let (k, b) = (kind.number(), grade.number());
        let full = vec![0xFF; bytes + 1];
        for place in [0, 1, kind.record_length(), usize::MAX] {
            let refused = |k: u8, b: u8, bytes: usize| {
                let mut buffer = vec![0xA5; kind.record_length() - 1];
                let answer = by_number::write_record(k, b, 1, &full[..bytes], &mut buffer, place);
                assert!(buffer.iter().all(|byte| *byte == 0xA5));
                answer
            };
            assert_eq!(refused(k + 4, b + 4, bytes + 1), Err(Refusal::Kind));
            assert_eq!(refused(2, b, bytes), Err(Refusal::Kind));
            assert_eq!(refused(k, b + 4, bytes + 1), Err(Refusal::Grade));
            assert_eq!(refused(k, 0, bytes), Err(Refusal::Grade));
            assert_eq!(refused(k, b, bytes + 1), Err(Refusal::MessageLength));
            assert_eq!(refused(k, b, bytes - 1), Err(Refusal::MessageLength));
            assert_eq!(refused(k, b, 0), Err(Refusal::MessageLength));
            let last = if kind < Kind::Five { Refusal::SpareBits } else { Refusal::RecordEnd };
            assert_eq!(refused(k, b, bytes), Err(last));
        }
    }
}

#[test]
fn reading_refused_in_order() {
    for (kind, grade) in formats() {
        let (length, whole) = (kind.frame_length(), kind.record_length());
        let (k, b) = (kind.number(), grade.number());
        let mut frame = vec![0; length];
        frame[0] = 1;
        frame[length - 1] = MAX_COORDINATE + 1;
        for left in [4, 8, whole - 1] {
            let mut bad = record(k + 4, b + 4, 0, &frame);
            bad.truncate(left);
            bad[1] = 0x43;
            assert_eq!(read(&bad, 0, length + 1), Err(Refusal::Mark));
            bad[..2].copy_from_slice(&[0x46, 0x4C]);
            assert_eq!(read(&bad, 0, length + 1), Err(Refusal::Mark));
            bad[..2].copy_from_slice(&[0x4C, 0x46]);
            assert_eq!(read(&bad, 0, length + 1), Err(Refusal::Kind));
            assert_eq!(read(&bad[..3], 0, length + 1), Err(Refusal::Kind));
            bad[2] = k;
            assert_eq!(read(&bad, 0, length + 1), Err(Refusal::Grade));
            bad[3] = b;
            assert_eq!(read(&bad, 0, length + 1), Err(Refusal::FrameLength));
            assert_eq!(read(&bad, 0, length), Err(Refusal::RecordEnd));
        }
        let of = |frame: &[i32]| read(&record(k, b, 0, frame), 0, length);
        assert_eq!(of(&frame), Err(Refusal::OverRange));
        frame[length - 1] = MAX_COORDINATE;
        assert_eq!(of(&frame), Err(Refusal::BrokenLevel0));
        frame[0] = 2;
        let second = if kind == Kind::Three { Refusal::Unshaped } else { Refusal::BrokenLevel1 };
        assert_eq!(of(&frame), Err(second));
        frame[0] = 4;
        let third = if kind == Kind::Six { Refusal::BrokenLevel2 } else { Refusal::Unshaped };
        assert_eq!(of(&frame), Err(third));
    }
}

/// Each coordinate at the ends of the range, which is no sent frame, and past them.
#[test]
fn ends_of_the_range() {
    for (kind, grade) in formats() {
        let length = kind.frame_length();
        for place in 0..length {
            for sign in [-1, 1] {
                let far = if sign < 0 { i32::MIN } else { i32::MAX };
                for (x, refusal) in [
                    (sign * MAX_COORDINATE, Refusal::Unshaped),
                    (sign * (MAX_COORDINATE + 1), Refusal::OverRange),
                    (sign * (MAX_COORDINATE - 1), Refusal::BrokenLevel0),
                    (far, Refusal::OverRange),
                ] {
                    let mut frame = vec![0; length];
                    frame[place] = x;
                    assert_eq!(read(&record(kind.number(), grade.number(), 7, &frame), 0, length), Err(refusal));
                }
            }
        }
    }
}

/// A record under the other parity of its number, and with each of its bytes changed, is what the strict reading says.
#[test]
fn changed_bytes() {
    for (seed, (kind, grade)) in formats().enumerate() {
        let (own_message, length) = (message(kind, grade, seed), kind.frame_length());
        for number in NUMBERS {
            let own = write_record_to_vec(kind, grade, number, &own_message).unwrap();
            assert!(read(&own, 0, length).is_ok());
            for place in 0..own.len() {
                for change in [0x01, 0x04, 0x80, 0xFF] {
                    let mut changed = own.clone();
                    changed[place] ^= change;
                    let _ = read(&changed, 0, length);
                }
            }
            let [frame, other] =
                [number, number ^ 1].map(|number| send_to_vec(kind, grade, number, &own_message).unwrap());
            let read = read(&record(kind.number(), grade.number(), number ^ 1, &frame.0), 0, length);
            assert_eq!(read.map(|read| read.energy), if frame == other { Ok(frame.1) } else { Err(Refusal::Unshaped) });
        }
    }
}

/// Records of all kinds and grades one behind the other, and what they are to be read as.
fn row() -> (Vec<u8>, Vec<Recorded>) {
    let (mut buffer, mut all) = (Vec::new(), Vec::new());
    for (seed, (kind, grade)) in formats().chain(formats().step_by(3)).enumerate() {
        let number = NUMBERS[seed % NUMBERS.len()];
        let message = message(kind, grade, seed);
        let (frame, energy) = send_to_vec(kind, grade, number, &message).unwrap();
        let place = buffer.len();
        buffer.resize(place + kind.record_length(), 0);
        assert_eq!(write_record(kind, grade, number, &message, &mut buffer, place), Ok(buffer.len()));
        all.push(Recorded { place, kind, grade, number, energy, frame });
    }
    (buffer, all)
}

/// All that comes of a buffer; and then none, however often it is asked.
fn read_through(buffer: &[u8]) -> (Vec<Recorded>, Option<RefusedRecord>) {
    let (mut all, mut refused, mut left) = (Vec::new(), None, records(buffer));
    loop {
        let (least, most) = left.size_hint();
        assert!(least <= left.clone().count() && left.clone().count() <= most.unwrap());
        match left.next() {
            Some(Ok(one)) => {
                assert_eq!(refused, None);
                all.push(one);
            }
            Some(Err(last)) => {
                assert_eq!(refused, None);
                refused = Some(last);
            }
            None => break,
        }
    }
    assert!((0..5).all(|_| left.next().is_none()));
    (all, refused)
}

#[test]
fn one_behind_the_other() {
    assert_eq!(read_through(&[]), (vec![], None));
    let (buffer, all) = row();
    assert_eq!(read_through(&buffer), (all.clone(), None));
    let last = all.last().unwrap().place;

    // Bytes behind the last record, and the last record cut short.
    for more in [vec![0], vec![0x4C], vec![0; 300], [&buffer[1..], &buffer].concat()] {
        let refused = Some(RefusedRecord { place: buffer.len(), refusal: Refusal::Mark });
        assert_eq!(read_through(&[&buffer[..], &more].concat()), (all.clone(), refused));
    }
    for end in last + 1..buffer.len() {
        let refusal = if end == last + 1 { Refusal::Mark } else { Refusal::RecordEnd };
        let refused = Some(RefusedRecord { place: last, refusal });
        assert_eq!(read_through(&buffer[..end]), (all[..all.len() - 1].to_vec(), refused));
    }

    // One of them is refused: none behind it comes.
    for (i, one) in all.iter().enumerate() {
        let mut changed = buffer.clone();
        let first = &mut changed[one.place + 8..one.place + 12];
        first.copy_from_slice(&(one.frame[0] + MAX_COORDINATE / 2).to_le_bytes());
        let refused = Some(RefusedRecord { place: one.place, refusal: Refusal::Unshaped });
        assert_eq!(read_through(&changed), (all[..i].to_vec(), refused));
        for (place, byte, refusal) in [(0, 0x4D, Refusal::Mark), (2, 7, Refusal::Kind), (3, 0, Refusal::Grade)] {
            let mut changed = buffer.clone();
            changed[one.place + place] = byte;
            let refused = Some(RefusedRecord { place: one.place, refusal });
            assert_eq!(read_through(&changed), (all[..i].to_vec(), refused));
        }
    }
}
