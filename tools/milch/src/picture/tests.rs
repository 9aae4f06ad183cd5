//! The text of the page, without a browser.

use super::data::{Book, Moment, ScreenRow, TaskView};
use super::follow::{Follower, Step, NEW, STAYS};
use super::{is_page, page as page_of};

fn screen(name: &str, mode: &str, affinity: u8) -> ScreenRow {
    ScreenRow {
        name: name.into(),
        mode: mode.into(),
        affinity,
    }
}

fn task(root: u8, screens: &[u8]) -> TaskView {
    TaskView {
        root,
        screens: screens.to_vec(),
    }
}

fn moment(number: u64, call: &str, closed: u8, tasks: &[TaskView], main: u8) -> Moment {
    let (call, tasks) = (call.into(), tasks.to_vec());
    Moment {
        number,
        call,
        closed,
        tasks,
        main,
        edition: 8,
        ..Moment::default()
    }
}

/// A price list starts a seat map; a launch is refused; the seat map goes back.
fn small() -> Book {
    let prices = [task(0, &[0])];
    let both = [task(1, &[1]), task(0, &[0])];
    let mut moments = vec![
        moment(1, "launch", 0, &prices, 1),
        moment(2, "start Seats NEW_TASK", 0, &both, 2),
        moment(3, "launch", 0, &both, 2),
        moment(4, "back", 1, &prices, 1),
    ];
    moments[1].rule = 18;
    moments[1].mark = true;
    moments[1].reason = "R18: no task is found for it".into();
    moments[2].mark = true;
    moments[2].refusal = Some("22: a task is there".into());
    moments[3].gone = vec![1];
    let screens = vec![
        screen("Prices", "standard", 1),
        screen("Seats", "single-task", 2),
    ];
    Book {
        title: "two.recording".into(),
        screens,
        moments,
        ..Book::default()
    }
}

fn page(book: &Book) -> String {
    let page = page_of(book);
    assert!(is_page(&page[..1024]));
    String::from_utf8(page).expect("the page is text")
}

fn data(page: &str) -> &str {
    let (_, behind) = page.split_once("id=\"book\">\n").expect("the data begin");
    behind.split_once("\n</script>").expect("the data end").0
}

#[test]
fn a_small_book_is_in_the_page() {
    let page = page(&small());
    assert!(page.starts_with("<!DOCTYPE html>\n<html lang=\"en\">"));
    assert!(page.contains("<title>two.recording · stacks</title>"));
    assert_eq!(
        data(&page),
        "{\"title\":\"two.recording\",\"main\":0,\"part\":false,\n\
         \"screens\":[[\"Prices\",\"standard\",1],[\"Seats\",\"single-task\",2]],\n\
         \"words\":[\"launch\",\"start Seats NEW_TASK\",\"R18: no task is found for it\",\"22: a task is there\",\"back\"],\n\
         \"tasks\":[[1,0,[0]],[2,1,[1]]],\n\
         \"stacks\":[[1],[2,1]],\n\
         \"gone\":[[1]],\n\
         \"moments\":[[1,1,0,0,0,1,1,8,0,1,1,0],[2,2,0,3,0,2,2,8,1,1,1,0],\
         [3,1,4,0,0,2,2,8,1,0,0,0],[4,5,0,0,1,1,1,8,0,2,0,1]]}"
    );
}

#[test]
fn every_refused_moment_is_marked() {
    let mut book = small();
    book.moments[0].refusal = Some("30: no such edition".into());
    let page = page(&book);
    let rows = data(&page)
        .split_once("\"moments\":[")
        .expect("the moments")
        .1;
    let refused: Vec<bool> = rows
        .split("],[")
        .map(|row| row.split(',').nth(2).expect("a refusal") != "0")
        .collect();
    assert_eq!(refused, [true, false, true, false]);
}

#[test]
fn names_are_text_and_nothing_else() {
    let mut book = small();
    book.title = "<b>&'\"</title>".into();
    book.screens[0].name = "</script><script>alert(1)</script>".into();
    book.screens[1].name = "say \"so\" \\ it's\u{202e}\n@@book@@".into();
    book.moments[1].call = "start <!--<script>".into();
    let page = page(&book);
    assert!(page.contains("<title>&lt;b&gt;&amp;&#39;&quot;&lt;/title&gt; · stacks</title>"));
    assert!(page.contains("\"title\":\"\\u003cb\\u003e\\u0026\\u0027\\\"\\u003c/title\\u003e\""));
    assert!(page.contains("[\"\\u003c/script\\u003e\\u003cscript\\u003ealert(1)\\u003c/script\\u003e\",\"standard\",1]"));
    assert!(page.contains(
        "[\"say \\\"so\\\" \\\\ it\\u0027s\\\\u{202e}\\\\u{a}@@book@@\",\"single-task\",2]"
    ));
    assert!(page.contains("\"start \\u003c!--\\u003cscript\\u003e\""));
    assert_eq!(page.matches("<script").count(), 2);
    assert_eq!(page.matches("</script>").count(), 2);
}

#[test]
fn the_page_needs_nothing_else() {
    let page = page(&small()).replace("http-equiv=", "");
    for outside in [
        "http",
        "//www",
        "src=",
        "href=",
        "import",
        "url(",
        "fetch(",
        "eval(",
        "innerHTML",
    ] {
        assert!(!page.contains(outside), "{outside}");
    }
    assert!(page.contains(
        "content=\"default-src 'none'; style-src 'nonce-page'; script-src 'nonce-page';"
    ));
    assert!(!page.contains("@@"));
}

/// On paper the columns around the chosen record stand in the place of the strip.
#[test]
fn the_page_has_a_form_for_paper() {
    let page = page(&small());
    let (_, paper) = page.split_once("@media print {").expect("a form for paper");
    let (paper, _) = paper.split_once("\n}\n").expect("its end");
    assert!(paper.contains("#strip, #time, #tip, #legend { display: none; }"));
    assert!(paper.contains("#printed { display: flex;"));
    assert!(page.contains("#printed { display: none; }"));
    assert!(page.contains("<div id=\"printed\" aria-hidden=\"true\"></div>"));
}

#[test]
fn an_empty_recording_is_a_page() {
    let page = page(&Book::default());
    assert!(data(&page).ends_with("\"moments\":[]}"));
}

fn follow(moments: &[Moment]) -> Vec<Step> {
    let mut follower = Follower::new(&[]);
    moments.iter().map(|moment| follower.step(moment)).collect()
}

fn step(ids: &[u64], came: usize, opened: bool) -> Step {
    Step {
        ids: ids.to_vec(),
        came,
        opened,
    }
}

#[test]
fn tasks_are_followed() {
    let steps = follow(&small().moments);
    assert_eq!(steps[0], step(&[1], NEW, true));
    assert_eq!(steps[1], step(&[2, 1], NEW, true));
    assert_eq!(steps[2], step(&[2, 1], STAYS, false));
    assert_eq!(steps[3], step(&[1], 2, false));
}

#[test]
fn the_third_task_comes_and_the_caller_goes() {
    let before = [
        task(1, &[4]),
        task(0, &[0]),
        task(2, &[5, 2]),
        task(2, &[2]),
    ];
    let after = [task(2, &[6, 5, 2]), task(0, &[0]), task(2, &[2])];
    let cleared = [task(2, &[6]), task(0, &[0]), task(2, &[2])];
    let steps = follow(&[
        moment(1, "as it was", 0, &before, 2),
        moment(2, "finish-start 6", 1, &after, 2),
        moment(3, "start 6 CLEAR_TASK", 3, &cleared, 2),
    ]);
    assert_eq!(steps[1], step(&[3, 2, 4], 3, true));
    assert_eq!(steps[2], step(&[3, 2, 4], STAYS, true));
}

#[test]
fn a_new_task_of_the_same_root_is_another() {
    let alone = [task(1, &[1])];
    let mut again = moment(2, "finish-start 1 MULTIPLE_TASK", 1, &alone, 0);
    again.rule = 11;
    let steps = follow(&[moment(1, "as it was", 0, &alone, 1), again]);
    assert_eq!(steps[1], step(&[2], NEW, true));
}

/// A part begins with the tasks that stand before it.
#[test]
fn a_part_is_followed() {
    let book = small();
    let both = [task(1, &[1]), task(0, &[0])];
    let mut follower = Follower::new(&both);
    assert_eq!(follower.step(&book.moments[3]), step(&[2], 2, false));
}
