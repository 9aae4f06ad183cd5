//! Each call, on the examples of document 01.

mod common;

use std::collections::HashSet;
use std::thread;

use common::flags::{CTK, CTP, MTK, NOH, NTK, RTF, STP};
use common::{image, session, table_t};
use milchkompass::{
    Answer, Edition, Flags, LaunchMode, Refusal, Replay, Screen, Session, Table, Task, IMAGE_MAX,
};

/// An answer in edition 8, without a mark.
fn answer(screen: u8, root: u8, height: u8, tasks: u8, main: u8, closed: u8) -> Answer {
    Answer {
        screen,
        root,
        height,
        tasks,
        main,
        closed,
        edition: Edition::Android8,
        no_history: false,
    }
}

/// The session's look, as the answer of a call that closed so many screens.
fn seen(s: &Session, closed: u8) -> Answer {
    Answer { closed, ..s.look() }
}

/// The library's fresh session, in a session and in a replay.
#[test]
fn fresh() {
    let table = table_t();
    let replay = Replay::new(table.bytes());
    let session = Session::new(table);
    assert_eq!(session.save(), [0, 0, 0, 0, 8, 0x42]);
    assert_eq!(session.look(), answer(0, 0, 0, 0, 0, 0));
    assert_eq!(replay.look(), Ok(session.look()));
    assert_eq!(
        format!("{session:?} {replay:?}"),
        "Session(m 0) Replay(m 0)"
    );
}

#[test]
fn the_players_example() {
    let mut s = Session::new(table_t());
    assert!(s.look().is_empty());
    let launched = s.launch(Edition::Android8);
    assert_eq!(launched, Ok(answer(0, 0, 1, 1, 1, 0)));
    assert_eq!(s.start(1, Flags::NONE), Ok(answer(1, 0, 2, 1, 1, 0)));
    assert_eq!(s.start(3, Flags::NONE), Ok(answer(3, 3, 1, 2, 2, 0)));
    assert_eq!(s.look(), answer(3, 3, 1, 2, 2, 0));
    assert_eq!(s.finish_start(0, NTK), Ok(answer(0, 0, 3, 1, 1, 1)));
    assert_eq!(s.back(), Ok(answer(1, 0, 2, 1, 1, 1)));
    assert_eq!(s.back(), Ok(answer(0, 0, 1, 1, 1, 1)));
    assert_eq!(s.back(), Ok(answer(0, 0, 0, 0, 0, 1)));
    assert_eq!(s.back(), Err(Refusal::Empty));
    assert_eq!(s, Session::new(table_t()));
}

#[test]
fn stacks_of_starts() {
    let p1 = session(&[(0, &[2, 1, 0])], 1);
    let p4 = session(&[(4, &[4]), (3, &[3]), (0, &[1, 0])], 3);
    let p6 = session(&[(5, &[1, 5]), (0, &[0])], 2);
    let p7 = session(&[(3, &[3]), (0, &[0])], 2);
    for (before, screen, flags, after, closed) in [
        (&p1, 1, RTF, "0:[1,2,0], m 1", 0),
        (&p1, 1, CTP, "0:[1,0], m 1", 1),
        (&p1, 1, CTP | RTF, "0:[1,0], m 1", 1),
        (&p1, 2, Flags::NONE, "0:[2,1,0], m 1", 0),
        (&p1, 1, NTK | CTK, "0:[1], m 1", 3),
        (&p4, 1, Flags::NONE, "0:[1,1,0] 4:[4] 3:[3], m 1", 0),
        (&p4, 1, STP, "0:[1,0] 4:[4] 3:[3], m 1", 0),
        (&p6, 5, NTK, "5:[1,5] 0:[0], m 2", 0),
        (&p7, 3, NTK | MTK, "3:[3] 0:[0], m 2", 0),
    ] {
        let mut s = before.clone();
        assert_eq!(s.start(screen, flags), Ok(seen(&s, closed)));
        assert_eq!(s.to_string(), after, "start {screen} of {before}");
    }
}

#[test]
fn stacks_of_finishing_starts() {
    for (flags, after) in [(NTK | CTK, "0:[0], m 1"), (NTK | STP, "m 0")] {
        let mut s = session(&[(0, &[0])], 1);
        assert_eq!(s.finish_start(0, flags), Ok(seen(&s, 1)));
        assert_eq!(s.to_string(), after);
    }
    let mut lifted = session(&[(0, &[2, 1, 0])], 1);
    assert_eq!(lifted.finish_start(1, RTF), Ok(seen(&lifted, 1)));
    assert_eq!(lifted.to_string(), "0:[1,0], m 1");
    let mut most = session(&[(3, &[3]), (0, &[0; 32])], 2);
    assert_eq!(most.finish_start(0, NTK | CTK), Ok(seen(&most, 33)));
    assert_eq!(most.to_string(), "0:[0], m 1");
}

#[test]
fn save_and_restore() {
    let p10 = session(&[(3, &[3]), (0, &[1, 0])], 2);
    let saved = p10.save();
    assert_eq!(saved, [3, 1, 3, 0, 2, 1, 0, 0, 7, 2, 2, 8, 0x42]);
    assert_eq!(saved, image(&[(3, &[3]), (0, &[1, 0])], 2));
    let mut buffer = [0xee; 14];
    assert_eq!(p10.save_into(&mut buffer), Ok(13));
    assert_eq!((&buffer[..13], buffer[13]), (&saved[..], 0xee));
    let mut s = session(&[(0, &[2, 1, 0])], 1);
    assert_eq!(s.restore(&saved), Ok(answer(3, 3, 1, 2, 2, 0)));
    assert_eq!(s, p10);
}

#[test]
fn the_longest_image() {
    let tasks: [(u8, &[u8]); 16] = [(1, &[1; 32]); 16];
    let full = session(&tasks, 0);
    assert_eq!(full.save().len(), 550);
    assert_eq!(full.save(), image(&tasks, 0));
    let mut buffer = [0; IMAGE_MAX];
    assert_eq!(full.save_into(&mut buffer), Ok(IMAGE_MAX));
    let short = &mut buffer[1..];
    assert_eq!(full.save_into(short), Err(Refusal::BufferShort));
}

#[test]
fn tables() {
    let bytes = [6, 0, 0, 1, 0, 1, 1, 1, 2, 2, 3, 1, 0, 2];
    assert_eq!(table_t().bytes(), bytes);
    assert_eq!(Table::from_bytes(&bytes), Ok(table_t()));
    assert_eq!(Session::new(table_t()).table(), &table_t());
    let screens: Vec<Screen> = table_t().screens().collect();
    assert_eq!(Table::new(0, &screens), Ok(table_t()));
    assert_eq!(screens[3], Screen::new(LaunchMode::SingleTask, 2));
    assert_eq!((table_t().len(), table_t().screens().len()), (6, 6));
    let other = Table::new(5, &screens).unwrap();
    assert_eq!((table_t().main(), other.main()), (0, 5));
}

#[test]
fn launch_modes() {
    for (number, mode) in [
        (0, LaunchMode::Standard),
        (1, LaunchMode::SingleTop),
        (2, LaunchMode::SingleTask),
        (3, LaunchMode::SingleInstance),
    ] {
        assert_eq!(LaunchMode::try_from(number), Ok(mode));
        assert_eq!(mode as u8, number);
    }
    for number in 4..=255 {
        assert!(LaunchMode::try_from(number).is_err());
    }
    let error = LaunchMode::try_from(4).unwrap_err();
    assert_eq!(error.to_string(), "4 is the number of no launch mode");
}

#[test]
fn flags() {
    let mut flags = NTK;
    flags |= CTK;
    assert_eq!(flags.bits(), 0x1000_8000);
    assert_eq!(Flags::from_bits(0x1000_8000), Some(flags));
    assert_eq!(Flags::from_bits_retain(0x1000_8000), flags);
    assert!(flags.contains(NTK) && flags.contains(flags) && flags.contains(Flags::NONE));
    assert!(!flags.contains(STP) && !flags.contains(NTK | STP));
    assert_eq!(flags & (CTK | CTP), CTK);
    flags &= STP;
    assert!(flags.is_empty() && !CTK.is_empty());
    assert_eq!((Flags::empty(), Flags::default()), (flags, Flags::NONE));
    assert_eq!(Flags::all(), NTK | STP | MTK | CTP | RTF | CTK | NOH);
    for bit in 0..32 {
        let word = 1 << bit;
        let known = Flags::all().contains(Flags::from_bits_retain(word));
        assert_eq!(Flags::from_bits(word).is_some(), known);
        assert_eq!(Flags::from_bits_retain(word).bits(), word);
    }
}

#[test]
fn flags_show_their_names() {
    let other = Flags::from_bits_retain(0x41);
    for (flags, shown) in [
        (Flags::NONE, "Flags(0x0)"),
        (RTF, "Flags(REORDER_TO_FRONT)"),
        (CTK | NTK, "Flags(NEW_TASK | CLEAR_TASK)"),
        (NOH | STP, "Flags(SINGLE_TOP | NO_HISTORY)"),
        (other, "Flags(0x41)"),
        (other | STP, "Flags(SINGLE_TOP | 0x41)"),
    ] {
        assert_eq!(format!("{flags:?}"), shown);
    }
}

#[test]
fn what_a_session_holds() {
    let p10 = session(&[(3, &[3]), (0, &[1, 0])], 2);
    let tasks: Vec<Task> = p10.tasks().collect();
    let task = |root, screens| Task { root, screens };
    assert_eq!(tasks, [task(3, &[3]), task(0, &[0, 1])]);
    assert_eq!((p10.tasks().len(), p10.main_place()), (2, 2));
    assert_eq!(
        (p10.edition(), p10.no_history()),
        (Edition::Android8, false)
    );
    let fresh = Session::new(table_t());
    assert_eq!((fresh.tasks().len(), fresh.main_place()), (0, 0));
    assert_eq!(
        (fresh.edition(), fresh.no_history()),
        (Edition::Android8, false)
    );
}

#[test]
fn equal_sessions_hash_alike() {
    let p10 = session(&[(3, &[3]), (0, &[1, 0])], 2);
    let mut seen = HashSet::from([p10.clone()]);
    assert!(!seen.insert(session(&[(3, &[3]), (0, &[1, 0])], 2)));
    assert!(seen.insert(session(&[(3, &[3]), (0, &[1, 0])], 0)));
}

#[test]
fn threads_share_a_session() {
    let p10 = session(&[(3, &[3]), (0, &[1, 0])], 2);
    thread::scope(|scope| {
        let calls = [(); 2].map(|_| scope.spawn(|| (p10.look(), p10.save())));
        for call in calls {
            assert_eq!(call.join().unwrap(), (p10.look(), p10.save()));
        }
    });
}
