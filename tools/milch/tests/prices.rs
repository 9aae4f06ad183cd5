//! README's recording: a price screen of site A starts the seat map of site B, with
//! NEW_TASK and without it.

mod common;

use common::{in_repository, run, wrote};

const SHOWN: &str = "     \
1  launch                      *A.home:[A.home]  | 1 0 0 0 1 1 1 0 8 0
     2  start B.home                B.home:[B.home] *A.home:[A.home]  R6  | 2 0 3 3 1 2 2 0 8 0
     3  start B.price               B.home:[B.price,B.home] *A.home:[A.home]  R10  | 2 0 4 3 2 2 2 0 8 0
     4  start A.price NEW_TASK      *A.home:[A.price,A.home] B.home:[B.price,B.home]  \
R17, found at place 2 by affinity  | 2 0 1 0 2 2 1 0 8 0
     5  start B.seats NEW_TASK      B.home:[B.seats,B.price,B.home] *A.home:[A.price,A.home]  \
R17, found at place 2 by affinity  | 2 0 5 3 3 2 2 0 8 0
     6  back                        B.home:[B.price,B.home] *A.home:[A.price,A.home]  closed 1: B.seats  \
| 4 0 4 3 2 2 2 1 8 0
     7  start A.price NEW_TASK|SINGLE_TOP  *A.home:[A.price,A.home] B.home:[B.price,B.home]  \
R16, found at place 2 by affinity  | 2 0 1 0 2 2 1 0 8 0
     8  start B.seats               *A.home:[B.seats,A.price,A.home] B.home:[B.price,B.home]  R10  \
| 2 0 5 0 3 2 1 0 8 0
     9  back                        *A.home:[A.price,A.home] B.home:[B.price,B.home]  closed 1: B.seats  \
| 4 0 1 0 2 2 1 1 8 0
";

const AT: &str = "\
RECORD 5: start B.seats NEW_TASK
  R17, found at place 2 by affinity: a task is found for it: it comes to the front, and the screen opens on top
STACKS: tasks=2 edition=8 mark=none
  Task #1: root=B.home affinity=2 main=no screens=3
    Hist #2: B.seats mode=standard
    Hist #1: B.price mode=standard
    Hist #0: B.home mode=single-task
  Task #2: root=A.home affinity=1 main=yes screens=2
    Hist #1: A.price mode=standard
    Hist #0: A.home mode=standard
";

#[test]
fn shown_with_names() {
    let (file, names) = (
        in_repository("prices.recording"),
        in_repository("prices.names"),
    );
    wrote(run(&["show", &file, "--names", &names]), SHOWN);
    wrote(run(&["at", &file, "5", "--names", &names]), AT);
}
