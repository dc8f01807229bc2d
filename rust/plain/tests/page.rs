//! The page of a follower, through the bytes.

use plain::{FOLLOWER_IMAGE, PAGE};

const WRITTEN: u64 = 3 | (PAGE as u64) << 8;

fn refused(number: u64) -> u64 {
    number << 8
}

fn lost(floor: u32) -> Vec<u8> {
    let mut image = vec![0; FOLLOWER_IMAGE];
    image[0] = 2;
    image[2..6].copy_from_slice(&floor.to_le_bytes());
    image
}

/// A follower that shows this number, consumer (port, mV, mA) and tracked ports.
fn showing(number: u32, consumer: Option<(u8, u16, u16)>, tracked: u16) -> Vec<u8> {
    let mut image = lost(number);
    image[1] = 1;
    if let Some((port, mv, ma)) = consumer {
        image[6..8].copy_from_slice(&[1, port]);
        image[8..10].copy_from_slice(&mv.to_le_bytes());
        image[10..12].copy_from_slice(&ma.to_le_bytes());
        image[12] = 13;
    }
    image[13..15].copy_from_slice(&[1, 16]);
    image[15..17].copy_from_slice(&tracked.to_le_bytes());
    image
}

/// The page in a buffer with 54 more bytes, which stay.
fn page(image: &[u8]) -> String {
    let mut buffer = [0xEE; 300];
    assert_eq!(plain::follower_write_page(image, &mut buffer), WRITTEN);
    let (page, rest) = buffer.split_at(PAGE);
    assert!(rest.iter().all(|byte| *byte == 0xEE));
    String::from_utf8(page.to_vec()).unwrap()
}

/// The figures of a page, each right in its columns behind its name.
fn figures(image: &[u8]) -> Vec<String> {
    let names = [
        "number              ",
        "state               ",
        "port                ",
        "millivolts          ",
        "milliamps           ",
        "tracked ports       ",
    ];
    let page = page(image);
    let lines = page.split_inclusive('\n').zip(names);
    let figures: Vec<String> = lines
        .map(|(line, name)| {
            let figure = line.strip_prefix(name).and_then(|f| f.strip_suffix('\n'));
            let figure = figure.unwrap_or_else(|| panic!("{line:?}"));
            assert_eq!(figure.len(), 20);
            figure.trim_start_matches(' ').to_string()
        })
        .collect();
    assert_eq!(figures.len(), 6);
    figures
}

#[test]
fn whole_pages() {
    let wanted = "\
number                                 -
state                               lost
port                                   -
millivolts                             -
milliamps                              -
tracked ports                          -
";
    for floor in [0, u32::MAX] {
        assert_eq!(page(&lost(floor)), wanted);
    }
    let wanted = "\
number                        4294967295
state                              level
port                                  15
millivolts                         65535
milliamps                          65535
tracked ports                12,13,14,15
";
    let greatest = showing(u32::MAX, Some((15, u16::MAX, u16::MAX)), 0xF000);
    assert_eq!(page(&greatest), wanted);
}

#[test]
fn the_example() {
    let mut image = vec![0; FOLLOWER_IMAGE];
    plain::follower_start(&mut image);
    let example = [1, 1, 0, 2, 1, 2, 1, 0xA0, 0x9C, 1, 0xB8, 0x17, 2];
    let takes: [(&[u8], [&str; 6]); 5] = [
        (&[2, 0, 0, 0, 0, 0], ["0", "level", "-", "-", "-", "-"]),
        (&[1, 2, 0, 0, 0], ["0", "waiting", "-", "-", "-", "-"]),
        (&example, ["2", "level", "1", "20000", "3000", "-"]),
        (&example, ["2", "level", "1", "20000", "3000", "-"]),
        (&[1, 3, 7, 1, 0], ["-", "lost", "-", "-", "-", "-"]),
    ];
    for (packet, wanted) in takes {
        assert_eq!(plain::follower_take(&mut image, packet), 4);
        assert_eq!(figures(&image), wanted);
    }
}

#[test]
fn zeros_and_edges_of_numbers() {
    let zeros = showing(0, Some((0, 0, 0)), 1);
    assert_eq!(figures(&zeros), ["0", "level", "0", "0", "0", "0"]);
    for number in [1, 9, 10, 99, 100, 999_999_999, 1_000_000_000] {
        let image = showing(number, Some((10, 9, 10)), 0x0200);
        let number = number.to_string();
        assert_eq!(figures(&image), [&number, "level", "10", "9", "10", "9"]);
    }
}

#[test]
fn every_tracked_set() {
    for tracked in (0..=u16::MAX).filter(|ports| ports.count_ones() <= 4) {
        let ports = (0..16).filter(|port| tracked >> port & 1 == 1);
        let ports: Vec<String> = ports.map(|port: u8| port.to_string()).collect();
        let wanted = match ports.as_slice() {
            [] => "-".to_string(),
            ports => ports.join(","),
        };
        assert_eq!(figures(&showing(1, None, tracked))[5], wanted);
    }
}

#[test]
fn each_slot_makes_it_wait() {
    for slot in 0..7 {
        let mut image = showing(5, Some((3, 2, 1)), 0x11);
        image[17 + 32 * slot] = 1;
        assert_eq!(figures(&image), ["5", "waiting", "3", "2", "1", "0,4"]);
    }
}

/// 21, then 34; refused, the buffer stays.
#[test]
fn refusals() {
    let level = showing(5, Some((3, 2, 1)), 0x11);
    let mut no_image = level.clone();
    no_image[13] = 2;
    let images = [
        (&level[..], true),
        (&lost(9), true),
        (&no_image, false),
        (&level[..FOLLOWER_IMAGE - 1], false),
        (&[&level[..], &[0]].concat(), false),
        (&[], false),
    ];
    for (image, is_image) in images {
        for length in [0, 1, 64, 245, 246, 247, 300] {
            let mut buffer = vec![0xEE; length];
            let wanted = match (is_image, length) {
                (false, _) => refused(21),
                (true, ..PAGE) => refused(34),
                _ => WRITTEN,
            };
            assert_eq!(plain::follower_write_page(image, &mut buffer), wanted);
            let later = if wanted == WRITTEN { PAGE } else { 0 };
            assert!(buffer[later..].iter().all(|byte| *byte == 0xEE));
        }
    }
}
