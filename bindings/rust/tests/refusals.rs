//! Every refusal that a caller can provoke, and that it changes nothing. 20
//! cannot be: a session's storage is its own. 9 stands with the replay, 31 with
//! the tally, 32 with the load, 35 with the fronts, and 36 to 38 with the
//! container.

mod common;

use common::{image, session, table_t};
use milchkompass::{Edition, Flags, LaunchMode, Refusal, Screen, Session, Table};

const PLAIN: Screen = Screen::new(LaunchMode::Standard, 0);

#[test]
fn tables() {
    for length in [0, 65, 255, 256, 1000] {
        let screens = vec![PLAIN; length];
        assert_eq!(Table::new(0, &screens), Err(Refusal::TableLength));
    }
    assert!(Table::new(63, &[PLAIN; 64]).is_ok());
    assert_eq!(Table::new(64, &[PLAIN; 64]), Err(Refusal::TableContent));
    for bytes in [&[][..], &[1], &[1, 0, 0], &[1, 0, 0, 0, 0]] {
        assert_eq!(Table::from_bytes(bytes), Err(Refusal::TableLength));
    }
    let above_3: &[u8] = &[1, 0, 4, 0];
    assert_eq!(Table::from_bytes(above_3), Err(Refusal::TableContent));
    assert_eq!(Table::try_from(above_3), Err(Refusal::TableContent));
    assert_eq!(Table::try_from(&above_3[..3]), Err(Refusal::TableLength));
    assert_eq!(Table::try_from(table_t().bytes()), Ok(table_t()));
}

/// A start and a finishing start are both refused so, and change nothing.
fn starts_refused(before: &Session, screen: u8, flags: Flags, refusal: Refusal) {
    let mut s = before.clone();
    assert_eq!(s.start(screen, flags), Err(refusal));
    assert_eq!(s.finish_start(screen, flags), Err(refusal));
    assert_eq!(&s, before);
}

#[test]
fn starts() {
    let fresh = Session::new(table_t());
    let other = Flags::from_bits_retain(1);
    starts_refused(&fresh, 6, other, Refusal::NoSuchScreen);
    starts_refused(&fresh, 0, other, Refusal::OtherFlag);
    starts_refused(&fresh, 0, Flags::NONE, Refusal::Empty);
}

#[test]
fn full_sessions_and_tasks() {
    let apart = Flags::NEW_TASK | Flags::MULTIPLE_TASK;
    let task: (u8, &[u8]) = (0, &[0]);
    let tasks = session(&[task; 16], 1);
    starts_refused(&tasks, 0, apart, Refusal::TasksFull);
    let mut room = session(&[task; 15], 1);
    assert!(room.start(0, apart).is_ok());
    let screens = session(&[(0, &[0; 32])], 1);
    starts_refused(&screens, 1, Flags::NONE, Refusal::TaskFull);
    let mut room = session(&[(0, &[0; 31])], 1);
    assert!(room.start(1, Flags::NONE).is_ok());
}

#[test]
fn launch_and_back() {
    let mut fresh = Session::new(table_t());
    assert_eq!(fresh.back(), Err(Refusal::Empty));
    assert_eq!(fresh, Session::new(table_t()));
    let before = session(&[(3, &[3]), (0, &[1, 0])], 2);
    let mut s = before.clone();
    for edition in Edition::ALL {
        assert_eq!(s.launch(*edition), Err(Refusal::NotEmpty));
        assert_eq!(s, before);
    }
}

/// Launch takes the bytes 0, 6, 7 and 8; 22 comes before 30.
#[test]
fn editions_of_a_launch() {
    let fresh = Session::new(table_t());
    let full = session(&[(3, &[3]), (0, &[1, 0])], 2);
    for byte in 0..=255 {
        let mut s = full.clone();
        assert_eq!(s.launch_byte(byte), Err(Refusal::NotEmpty));
        assert_eq!(s, full);
        if ![0, 6, 7, 8].contains(&byte) {
            let mut s = fresh.clone();
            assert_eq!(s.launch_byte(byte), Err(Refusal::NoSuchEdition));
            assert_eq!(s, fresh);
        }
    }
}

#[test]
fn images() {
    let before = session(&[(3, &[3]), (0, &[1, 0])], 2);
    let cut = &before.save()[1..];
    for (image, refusal) in [
        (cut, Refusal::ImageTrailer),
        (&[], Refusal::ImageTrailer),
        (&image(&[(0, &[])], 0), Refusal::ImageTasks),
        (&image(&[(0, &[6])], 0), Refusal::ImageUnsound),
        (&image(&[(0, &[4])], 0), Refusal::ImageUnsound),
    ] {
        let mut s = before.clone();
        assert_eq!(s.restore(image), Err(refusal));
        assert_eq!(s, before);
    }
    let mut buffer = [0xee; 12];
    assert_eq!(before.save_into(&mut buffer), Err(Refusal::BufferShort));
    assert_eq!(buffer, [0xee; 12]);
}

#[test]
fn errors() {
    let error: Box<dyn std::error::Error> = Box::new(Refusal::NotEmpty);
    assert_eq!(
        error.to_string(),
        "refusal 22: a launch, and a task is there"
    );
    let numbers: Vec<u8> = Refusal::ALL.iter().map(|r| r.number()).collect();
    let known = [
        1, 2, 3, 4, 5, 6, 7, 8, 9, 20, 21, 22, 23, 24, 30, 31, 32, 35, 36, 37, 38,
    ];
    assert_eq!(numbers, known);
    for number in 0..=255 {
        match Refusal::try_from(number) {
            Ok(refusal) => assert_eq!(refusal.number(), number),
            Err(_) => assert!(!numbers.contains(&number)),
        }
    }
    let error = Refusal::try_from(10).unwrap_err();
    assert_eq!(error.to_string(), "10 is the number of no refusal");
}
