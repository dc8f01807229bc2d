//! Numbers marked #.

use link_model::number::{LIMIT, MILLI_LIMIT, read, write};

#[test]
fn p11() {
    assert_eq!(write(128), [0x80, 0x01]);
    assert_eq!(write(300), [0xAC, 0x02]);
    assert_eq!(read(&[0x80, 0x01], LIMIT), Ok((128, 2)));
    assert_eq!(read(&[0xAC, 0x02], LIMIT), Ok((300, 2)));
    assert_eq!(read(&[0x80, 0x00], LIMIT), Err(31));
}

#[test]
fn written_forms() {
    assert_eq!(write(0), [0x00]);
    assert_eq!(write(127), [0x7F]);
    assert_eq!(write(16_383), [0xFF, 0x7F]);
    assert_eq!(write(16_384), [0x80, 0x80, 0x01]);
    assert_eq!(write(65_535), [0xFF, 0xFF, 0x03]);
    assert_eq!(write(u32::MAX), [0xFF, 0xFF, 0xFF, 0xFF, 0x0F]);
}

#[test]
fn bytes_after_a_number_are_not_its_own() {
    assert_eq!(read(&[0x05, 0x80], LIMIT), Ok((5, 1)));
    assert_eq!(read(&[0x80, 0x01, 0xFF], LIMIT), Ok((128, 2)));
}

#[test]
fn round_trip() {
    let mut values: Vec<u32> = (0..70_000).collect();
    for shift in 0..32 {
        for near in 0..5 {
            values.push((1_u32 << shift).wrapping_add(near).wrapping_sub(2));
        }
    }
    for value in values {
        let bytes = write(value);
        assert_eq!(read(&bytes, LIMIT), Ok((value, bytes.len())));
        let milli = if value <= 65_535 {
            Ok((value, bytes.len()))
        } else {
            Err(31)
        };
        assert_eq!(read(&bytes, MILLI_LIMIT), milli);
        for length in 0..bytes.len() {
            assert_eq!(read(&bytes[..length], LIMIT), Err(30));
        }
    }
}

#[test]
fn what_is_read_is_what_would_be_written() {
    for a in 0..=255_u8 {
        for b in 0..=255_u8 {
            for c in (0..=255_u8).step_by(5) {
                let bytes = [a, b, c];
                match read(&bytes, LIMIT) {
                    Ok((value, count)) => assert_eq!(write(value), bytes[..count]),
                    Err(30) => assert!(a >= 128 && b >= 128 && c >= 128),
                    Err(refusal) => {
                        assert_eq!(refusal, 31);
                        // A zero that only makes the form longer.
                        assert!(a >= 128 && (b == 0 || b >= 128 && c == 0));
                    }
                }
            }
        }
    }
}

#[test]
fn empty_and_cut_are_30() {
    assert_eq!(read(&[], LIMIT), Err(30));
    assert_eq!(read(&[0x80], LIMIT), Err(30));
    assert_eq!(read(&[0xFF, 0xFF], LIMIT), Err(30));
}

#[test]
fn four_continued_bytes_and_end_are_30() {
    assert_eq!(read(&[0x80; 4], LIMIT), Err(30));
    assert_eq!(read(&[0xFF; 4], LIMIT), Err(30));
    assert_eq!(read(&[0x80; 4], MILLI_LIMIT), Err(30));
    assert_eq!(read(&[0xFF; 4], MILLI_LIMIT), Err(30));
}

#[test]
fn five_continued_bytes_are_31() {
    assert_eq!(read(&[0x80; 5], LIMIT), Err(31));
    assert_eq!(read(&[0xFF; 5], LIMIT), Err(31));
    assert_eq!(read(&[0xFF; 6], LIMIT), Err(31));
    assert_eq!(read(&[0x80; 5], MILLI_LIMIT), Err(31));
    assert_eq!(read(&[0xFF; 5], MILLI_LIMIT), Err(31));
    assert_eq!(read(&[0x80, 0x80, 0x80, 0x80, 0x80, 0x01], LIMIT), Err(31));
}

#[test]
fn a_limit_is_looked_at_after_the_last_byte() {
    assert_eq!(read(&[0xFF, 0xFF, 0xFF], MILLI_LIMIT), Err(30));
    assert_eq!(read(&[0xFF, 0xFF, 0xFF, 0x00], MILLI_LIMIT), Err(31));
    assert_eq!(read(&[0xFF, 0xFF, 0xFF, 0x01], MILLI_LIMIT), Err(31));
    assert_eq!(read(&[0xFF, 0xFF, 0x03], MILLI_LIMIT), Ok((65_535, 3)));
    assert_eq!(read(&[0x80, 0x80, 0x04], MILLI_LIMIT), Err(31));
    assert_eq!(
        read(&[0xFF, 0xFF, 0xFF, 0xFF, 0x0F], LIMIT),
        Ok((u32::MAX, 5))
    );
    assert_eq!(read(&[0x80, 0x80, 0x80, 0x80, 0x10], LIMIT), Err(31));
    assert_eq!(read(&[0xFF, 0xFF, 0xFF, 0xFF, 0x7F], LIMIT), Err(31));
}

#[test]
fn longer_than_shortest_is_31() {
    assert_eq!(read(&[0x85, 0x00], LIMIT), Err(31));
    assert_eq!(read(&[0x85, 0x80, 0x00], LIMIT), Err(31));
    assert_eq!(read(&[0x85, 0x80, 0x80, 0x00], LIMIT), Err(31));
    assert_eq!(read(&[0x85, 0x80, 0x80, 0x80, 0x00], LIMIT), Err(31));
    // Zero groups inside are no fault.
    assert_eq!(read(&[0x85, 0x80, 0x01], LIMIT), Ok((16_389, 3)));
}
