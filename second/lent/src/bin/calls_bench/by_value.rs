//! The calls in plain Rust with sessions by value, stored as the static library
//! stores them: what by value costs where nothing is proved. Each outer function
//! takes the session by `&mut`, calls the core by value and stores its result,
//! as the library's do. Only here to be measured; `lot` holds it against the
//! library first.

mod changes;

use lent_calls::stored::{Stored, StoredTask};
use second::edition::{EDITIONS, EIGHT, SEVEN, SIX};
use second::session::{MAX_HEIGHT, MAX_TASKS};
use second::table::{
    ALL_FLAGS, CLEAR_TASK, CLEAR_TOP, MAX_SCREENS, MULTIPLE_TASK, NEW_TASK, NO_AFFINITY,
    NO_HISTORY, REORDER_TO_FRONT, SINGLE_TOP,
};

use changes::{carry_out, close, close_mark, top, topmost, Change, Plan};

type Answer = [u8; 9];

struct Reply {
    session: Stored,
    answer: Answer,
}

#[inline(never)]
pub fn look(table: &[u8], session: &mut Stored) -> Answer {
    let reply = looked(table, *session);
    *session = reply.session;
    reply.answer
}

#[inline(never)]
pub fn back(table: &[u8], session: &mut Stored) -> Answer {
    let reply = backed(table, *session);
    *session = reply.session;
    reply.answer
}

#[inline(never)]
pub fn start(table: &[u8], session: &mut Stored, b: u8, flags: u32) -> Answer {
    let reply = started(table, *session, b, flags, false);
    *session = reply.session;
    reply.answer
}

#[inline(never)]
pub fn finishing_start(table: &[u8], session: &mut Stored, b: u8, flags: u32) -> Answer {
    let reply = started(table, *session, b, flags, true);
    *session = reply.session;
    reply.answer
}

fn looked(table: &[u8], session: Stored) -> Reply {
    let number = shared_refusal(table, &session);
    told(number, session, 0)
}

fn backed(table: &[u8], mut session: Stored) -> Reply {
    let mut number = shared_refusal(table, &session);
    if number == 0 && session.n == 0 {
        number = 21;
    }
    let mut closed = 0;
    if number == 0 {
        closed = close(&mut session, 0, 0);
        session.no_history = 0;
    }
    told(number, session, closed)
}

fn started(table: &[u8], mut session: Stored, b: u8, flags: u32, finishing: bool) -> Reply {
    let plan = match plan(table, &session, b, flags) {
        Err(number) => return told(number, session, 0),
        Ok(plan) => plan,
    };
    if matches!(plan, Plan::Stay) && !finishing {
        return told(0, session, 0);
    }
    let front = top(&session.tasks[0]);
    let closes = finishing || session.no_history == 1;
    let mut closed = carry_out(&mut session, b, plan);
    session.no_history = u8::from(flags & NO_HISTORY != 0 && plan.creates());
    if closes {
        closed += close_mark(&mut session, plan, front == b);
    }
    told(0, session, closed)
}

fn told(number: u8, session: Stored, closed: u8) -> Reply {
    let Stored {
        n,
        main,
        edition,
        no_history,
        ..
    } = session;
    let front = &session.tasks[0];
    let answer = match (number, n) {
        (0, 0) => [0, 0, 0, 0, 0, main, closed, edition, no_history],
        (0, _) => [
            0,
            top(front),
            front.root,
            front.height,
            n,
            main,
            closed,
            edition,
            no_history,
        ],
        _ => [number, 0, 0, 0, 0, 0, 0, 0, 0],
    };
    Reply { session, answer }
}

// ---- the shared checks

fn mode(table: &[u8], screen: u8) -> u8 {
    table[2 + 2 * usize::from(screen)]
}

fn affinity(table: &[u8], screen: u8) -> u8 {
    table[3 + 2 * usize::from(screen)]
}

fn shared_refusal(table: &[u8], session: &Stored) -> u8 {
    if table.len() < 2 || table.len() != 2 + 2 * usize::from(table[0]) {
        return 1;
    }
    if table[0] < 1 || table[0] > MAX_SCREENS {
        return 1;
    }
    if table[1] >= table[0] || (0..table[0]).any(|screen| mode(table, screen) > 3) {
        return 2;
    }
    if is_sound(table, session) {
        0
    } else {
        20
    }
}

fn is_sound(table: &[u8], session: &Stored) -> bool {
    let n = usize::from(session.n);
    if n > MAX_TASKS {
        return false;
    }
    let (tasks, rest) = session.tasks.split_at(n);
    let again = |i: usize| tasks[i + 1..].iter().any(|task| task.root == tasks[i].root);
    tasks.iter().all(|task| is_task_sound(table, task))
        && rest.iter().all(is_blank)
        && !(0..n).any(|i| mode(table, tasks[i].root) >= 2 && again(i))
        && match usize::from(session.main) {
            0 => true,
            main => main <= n && tasks[main - 1].root == table[1],
        }
        && EDITIONS.contains(&session.edition)
        && (n > 0 || session.edition == EIGHT)
        && session.no_history <= u8::from(n > 0)
}

fn is_task_sound(table: &[u8], task: &StoredTask) -> bool {
    let height = usize::from(task.height);
    if task.root >= table[0] || !(1..=MAX_HEIGHT).contains(&height) {
        return false;
    }
    let (screens, rest) = task.screens.split_at(height);
    let known = if mode(table, task.root) == 3 {
        screens == [task.root]
    } else {
        screens.iter().all(|&x| x < table[0] && mode(table, x) != 3)
    };
    known && rest.iter().all(|&x| x == 0)
}

fn is_blank(task: &StoredTask) -> bool {
    task.root == 0 && task.height == 0 && task.screens.iter().fold(0, |all, &x| all | x) == 0
}

// ---- a start

fn plan(table: &[u8], session: &Stored, b: u8, flags: u32) -> Result<Plan, u8> {
    let number = shared_refusal(table, session);
    if number != 0 {
        return Err(number);
    }
    if b >= table[0] {
        return Err(3);
    }
    if flags & !ALL_FLAGS != 0 {
        return Err(4);
    }
    if session.n == 0 {
        return Err(21);
    }
    let plan = rule(table, session, b, flags);
    match plan {
        Plan::New if usize::from(session.n) == MAX_TASKS => Err(23),
        Plan::Move(i, Change::Push) if usize::from(session.tasks[i].height) == MAX_HEIGHT => {
            Err(24)
        }
        _ => Ok(plan),
    }
}

fn used(session: &Stored) -> &[StoredTask] {
    &session.tasks[..usize::from(session.n)]
}

fn by_root(session: &Stored, b: u8) -> Option<usize> {
    used(session).iter().position(|task| task.root == b)
}

fn by_affinity(table: &[u8], session: &Stored, b: u8) -> Option<usize> {
    let akin = |task: &StoredTask| {
        affinity(table, b) != NO_AFFINITY
            && mode(table, task.root) != 3
            && affinity(table, task.root) == affinity(table, b)
    };
    used(session).iter().position(akin)
}

/// The index of the task found, and whether root found it.
fn sought(table: &[u8], session: &Stored, b: u8) -> Option<(usize, bool)> {
    let house = mode(table, b) == 2 && affinity(table, b) == NO_AFFINITY;
    let root = match session.edition {
        SIX if !house => None,
        _ => by_root(session, b),
    };
    let affinity = || Some((by_affinity(table, session, b)?, false));
    root.map(|i| (i, true)).or_else(affinity)
}

fn rule(table: &[u8], session: &Stored, b: u8, flags: u32) -> Plan {
    let set = |flag: u32| flags & flag != 0;
    let single = mode(table, b) == 1 || set(SINGLE_TOP);
    let front = top(&session.tasks[0]);
    match mode(table, b) {
        3 => by_root(session, b).map_or(Plan::New, |i| Plan::Move(i, Change::Keep)),
        2 => match sought(table, session, b) {
            None => Plan::New,
            Some((i, _)) if set(CLEAR_TASK) => Plan::Move(i, Change::Renew),
            Some((i, _)) if topmost(&session.tasks[i], b).is_some() => Plan::Move(i, Change::Clear),
            Some((i, _)) => Plan::Move(i, Change::Push),
        },
        _ if !set(NEW_TASK) && mode(table, front) != 3 => not_apart(session, b, flags, single),
        _ if set(MULTIPLE_TASK) => Plan::New,
        _ => sought(table, session, b).map_or(Plan::New, |(i, rooted)| {
            Plan::Move(i, apart(session, b, flags, single, (i, rooted)))
        }),
    }
}

fn not_apart(session: &Stored, b: u8, flags: u32, single: bool) -> Plan {
    let front = &session.tasks[0];
    let (clear, reorder) = (flags & CLEAR_TOP != 0, flags & REORDER_TO_FRONT != 0);
    let held = || topmost(front, b).is_some();
    let change = match (session.edition, session.main) {
        _ if top(front) == b && (single || reorder || clear) => return Plan::Stay,
        _ if clear && held() => Change::Clear,
        (SEVEN, 1) if reorder && held() => Change::Renew,
        _ if reorder && held() => Change::Lift,
        _ => Change::Push,
    };
    Plan::Move(0, change)
}

fn apart(session: &Stored, b: u8, flags: u32, single: bool, (i, rooted): (usize, bool)) -> Change {
    let task = &session.tasks[i];
    let not_main = rooted && i + 1 != usize::from(session.main);
    match flags & CLEAR_TOP != 0 {
        _ if flags & CLEAR_TASK != 0 => Change::Renew,
        true if topmost(task, b).is_some() => Change::Clear,
        true => Change::Push,
        false if not_main || (single && top(task) == b) => Change::Keep,
        false => Change::Push,
    }
}
