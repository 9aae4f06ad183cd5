//! The flag chart, by the words of document 02.

use milchkompass::{chart, Edition, Flags, LaunchMode, Screen, Session, Table};

/// The entry of a mode, of a caller that is single-instance or not, and of six
/// flags from new task to clear task.
fn entry(mode: u16, caller: bool, flags: [bool; 6]) -> u8 {
    let [new_task, single_top, multiple_task, clear_top, reorder, clear_task] = flags;
    let class = match mode {
        3 => 1,
        2 => 2,
        _ if !new_task && !caller => 3,
        _ if multiple_task => 4,
        _ => 5,
    };
    let single = mode == 1 || single_top;
    let eight = single && (class == 3 || class == 5 && !clear_top && !clear_task);
    let sixteen = clear_top && (class == 3 || class == 5 && !clear_task);
    let thirty_two = clear_task && (class == 2 || class == 5);
    let sixty_four = reorder && !clear_top && class == 3;
    let worth = |value: u8, counts: bool| if counts { value } else { 0 };
    class + worth(8, eight) + worth(16, sixteen) + worth(32, thirty_two) + worth(64, sixty_four)
}

#[test]
fn each_entry() {
    for index in 0..512 {
        let set = |worth: u16| index / worth % 2 == 1;
        let flags = [32, 16, 8, 4, 2, 1].map(set);
        let wanted = entry(index / 128, set(64), flags);
        assert_eq!(chart(index), Some(wanted), "{index}");
    }
}

#[test]
fn no_others() {
    assert!((512..=u16::MAX).all(|index| chart(index).is_none()));
}

/// On sessions that random starts lead to, the chart's start gives what the
/// rules' start gives.
#[test]
fn starts_by_the_chart() {
    let screens: Vec<Screen> = (0..8)
        .map(|k| Screen::new(LaunchMode::ALL[k % 4], [0, 1, 1, 2][k / 2]))
        .collect();
    let table = Table::new(0, &screens).expect("a table");
    let mut state = 1_u32;
    for edition in [Edition::Android6, Edition::Android7, Edition::Android8] {
        let mut session = Session::new(table.clone());
        for _ in 0..20_000 {
            state = state.wrapping_mul(1_664_525).wrapping_add(1_013_904_223);
            let (screen, flags) = ((state >> 8) as u8 % 9, Flags::from_bits_retain(drawn(state)));
            let _ = session.launch(edition);
            let (mut plain, mut finishing) = (session.clone(), session.clone());
            let answer = finishing.finish_start(screen, flags);
            let mut by_chart = session.clone();
            assert_eq!(by_chart.finish_start_by_chart(screen, flags), answer);
            assert_eq!(by_chart, finishing);
            let answer = plain.start(screen, flags);
            let mut by_chart = session.clone();
            assert_eq!(by_chart.start_by_chart(screen, flags), answer);
            assert_eq!(by_chart, plain);
            session = if state >> 30 == 0 { finishing } else { plain };
            if state >> 27 == 31 {
                let _ = session.back();
            }
        }
    }
}

/// A word of the seven flags, and at times a bit outside them.
fn drawn(state: u32) -> u32 {
    let mut word = 0;
    for (k, (_, flag)) in Flags::all().iter_names().enumerate() {
        if state >> (12 + 2 * k) & 3 == 0 {
            word |= flag.bits();
        }
    }
    word | u32::from(state >> 4 & 63 == 0)
}
