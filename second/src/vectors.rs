//! Sessions with the lines they must give, and texts that must be refused.
//!
//! A sum in a comment is the one that decides on a retry, just before a commit: executing tasks +
//! plain tasks + waiting tasks ranked above. The third number of a wait is a task: of those that
//! execute at the release and clash with it, the one that ranks highest.
//!
//! In mode 1 a comment gives deadlines. MAX stands for 4,294,967,295, the last tick.

/// A session in readable text, and its lines.
pub struct Written {
    pub name: &'static str,
    pub text: &'static str,
    pub lines: &'static str,
}

pub const SESSIONS: [Written; 18] = [
    Written {
        name: "the session of 01",
        text: WHOLE_TEXT,
        lines: WHOLE_LINES,
    },
    Written {
        name: "the session of 01 in kind 7, mode 0",
        text: WHOLE_IN_MODE_0_TEXT,
        lines: WHOLE_LINES,
    },
    Written {
        name: "the session of 01 in mode 1",
        text: WHOLE_IN_MODE_1_TEXT,
        lines: WHOLE_LINES,
    },
    Written {
        name: "the session of 01 by lists",
        text: WHOLE_BY_LISTS_TEXT,
        lines: WHOLE_LINES,
    },
    Written {
        name: "the ends of all objects, by lists",
        text: ENDS_TEXT,
        lines: ENDS_LINES,
    },
    Written {
        name: "a scan after a deferred release",
        text: DEFERRED_TEXT,
        lines: DEFERRED_LINES,
    },
    Written {
        name: "two waiting that clash",
        text: PAIR_TEXT,
        lines: PAIR_LINES,
    },
    Written {
        name: "new sets after a commit",
        text: NEW_SETS_TEXT,
        lines: NEW_SETS_LINES,
    },
    Written {
        name: "a retry, and then a clash without one: plain tasks below count",
        text: PLAIN_BELOW_TEXT,
        lines: PLAIN_BELOW_LINES,
    },
    Written {
        name: "a clash without a retry, and then one: waiting tasks above count",
        text: WAITING_ABOVE_TEXT,
        lines: WAITING_ABOVE_LINES,
    },
    Written {
        name: "the one waited for, of five executing ones that clash",
        text: WAITED_FOR_TEXT,
        lines: WAITED_FOR_LINES,
    },
    Written {
        name: "two tasks in the order of mode 0",
        text: ORDER_IN_MODE_0_TEXT,
        lines: ORDER_IN_MODE_0_LINES,
    },
    Written {
        name: "the same two in the order of mode 1",
        text: ORDER_IN_MODE_1_TEXT,
        lines: ORDER_IN_MODE_1_LINES,
    },
    Written {
        name: "deadlines that are equal",
        text: EQUAL_TEXT,
        lines: EQUAL_LINES,
    },
    Written {
        name: "deadlines past the last tick",
        text: LATE_TEXT,
        lines: LATE_LINES,
    },
    Written {
        name: "a task that ranks above another with one job, and below it with the next",
        text: CHANGE_TEXT,
        lines: CHANGE_LINES,
    },
    Written {
        name: "a waiting task overtaken by a later arrival",
        text: OVERTAKEN_TEXT,
        lines: OVERTAKEN_LINES,
    },
    Written {
        name: "a plain task that loses its processor to a later arrival",
        text: LOST_TEXT,
        lines: LOST_LINES,
    },
];

/// The texts of one session by how its setup is said: in kind 1, in kind 7 with mode 0, and in
/// kind 7 with mode 1.
macro_rules! by_setup {
    ($processors:literal, $rest:literal) => {
        [
            concat!("setup ", $processors, "\n", $rest),
            concat!("setup ", $processors, " mode 0\n", $rest),
            concat!("setup ", $processors, " mode 1\n", $rest),
        ]
    };
}

/// "A whole session" of document 01. At tick 5 task 2 runs although it clashes with waiting task 1.
/// At 3 task 0 alone executes, so that task 1 waits for it.
///
/// Both commits that task 1 waits for clash with it, and neither is a retry, since m is 2: at 6
/// tasks 0 and 2 execute, 2 + 0 + 0; at 7 task 2 executes and task 0 is plain, 1 + 1 + 0.
///
/// In mode 1 the deadlines are 0 + 100, 2 + 50 = 52 and 4 + 80 = 84: they rank the tasks as their
/// priorities do, so that the lines are the same.
const WHOLE_TEXTS: [&str; 3] = by_setup!(
    "2",
    "\
task 10 100 2
task 30 50 1
task 20 80 1
0 arrive 0
1 release 0 reads writes 4
2 arrive 1
3 release 1 reads 4 writes 7
4 arrive 2
5 release 2 reads writes 7
6 commit 0
7 commit 2
8 finish 0
8 commit 1
9 finish 1
10 finish 0
11 finish 2
12 arrive 1
end
"
);

pub const WHOLE_TEXT: &str = WHOLE_TEXTS[0];
pub const WHOLE_IN_MODE_0_TEXT: &str = WHOLE_TEXTS[1];
pub const WHOLE_IN_MODE_1_TEXT: &str = WHOLE_TEXTS[2];

/// The same events, with every release in kind 8.
pub const WHOLE_BY_LISTS_TEXT: &str = "\
setup 2
task 10 100 2
task 30 50 1
task 20 80 1
0 arrive 0
1 release 0 lists reads writes 4
2 arrive 1
3 release 1 lists reads 4 writes 7
4 arrive 2
5 release 2 lists reads writes 7
6 commit 0
7 commit 2
8 finish 0
8 commit 1
9 finish 1
10 finish 0
11 finish 2
12 arrive 1
end
";

const WHOLE_LINES: &str = "\
setup 2 3
0 arrive 0 ok
1 release 0 run
2 arrive 1 ok
3 release 1 wait 4 1 0
4 arrive 2 ok
5 release 2 run
6 commit 0 ok
7 commit 2 ok
7 admit 1 2 0
8 finish 0 no 6
8 commit 1 ok
9 finish 1 ok
10 finish 0 ok
11 finish 2 ok
12 arrive 1 no 5
end 12 2
";

/// Objects 0 and 255, in the reads, in the writes and in both; and writes that begin below the last
/// of the reads. m is 3, and the deadlines are 100, 101 and 102.
///
/// At 3 task 0 executes, and task 1 clashes with it on 0, which it writes, and on 255, which both
/// write. At 4 task 2 only reads 0, as task 0 does, and task 1, which writes it, does not execute.
/// At 5 task 0 commits: 2 + 0 + 0, a retry; but task 2 still reads 0. At 6 it commits: 1 + 1 + 0, a
/// retry, and task 1 runs.
///
/// At 7 and at 8 sets without an object clash with nothing, and task 3 is none of the tasks.
const ENDS_TEXT: &str = "\
setup 3 mode 1
task 1 100 2
task 1 100 1
task 1 100 2
0 arrive 0
1 arrive 1
2 arrive 2
2 release 0 lists reads 0 255 writes 255
3 release 1 lists reads 1 255 writes 0 255
4 release 2 lists reads 0 writes
5 commit 0
6 commit 2
7 release 0 lists reads writes
8 release 2 lists reads writes
9 release 3 lists reads 0 writes 255
end
";

const ENDS_LINES: &str = "\
setup 3 3
0 arrive 0 ok
1 arrive 1 ok
2 arrive 2 ok
2 release 0 run
3 release 1 wait 0 2 0
4 release 2 run
5 commit 0 ok
6 commit 2 ok
6 admit 1 2 2
7 release 0 run
8 release 2 run
9 release 3 no 1
end 10 1
";

/// "Easy to get wrong", the first case: when task 0 commits, task 1 has no room, since task 3 is
/// plain above it. The scan after task 3's deferred release admits it. The commit is no retry:
/// tasks 0 and 2 execute and task 3 is plain, 2 + 1 + 0, and m is 2.
///
/// At 3 task 0 alone executes, at 8 task 2 alone.
pub const DEFERRED_TEXT: &str = "\
setup 2
task 10 100 1
task 20 100 1
task 30 100 1
task 40 100 1
0 arrive 0
1 release 0 reads writes 1
2 arrive 1
3 release 1 reads writes 1
4 arrive 2
5 release 2 reads writes 2
6 arrive 3
7 commit 0
8 release 3 reads writes 2
end
";

const DEFERRED_LINES: &str = "\
setup 2 4
0 arrive 0 ok
1 release 0 run
2 arrive 1 ok
3 release 1 wait 1 1 0
4 arrive 2 ok
5 release 2 run
6 arrive 3 ok
7 commit 0 ok
8 release 3 wait 2 1 2
8 admit 1 1 0
end 9 0
";

/// "Easy to get wrong", the third case: the two waiting tasks clash with each other, so that the
/// commit of task 0 admits only the higher one, although both have room. At 2 and at 3 task 0 alone
/// executes.
///
/// m is 3, and every clash is a retry. At 4 task 0 executes: 1 + 0 + 0 for task 1, and for task 2,
/// with task 1 above it, 1 + 0 + 1. At 5 task 1 executes and task 0 is plain: 1 + 1 + 0 for task 2.
pub const PAIR_TEXT: &str = "\
setup 3
task 30 100 1
task 20 100 1
task 10 100 1
0 arrive 0
0 arrive 1
0 arrive 2
1 release 0 reads writes 9 200
2 release 2 reads 200 writes 9
3 release 1 reads writes 200
4 commit 0
5 commit 1
end
";

const PAIR_LINES: &str = "\
setup 3 3
0 arrive 0 ok
0 arrive 1 ok
0 arrive 2 ok
1 release 0 run
2 release 2 wait 9 2 0
3 release 1 wait 200 1 0
4 commit 0 ok
4 admit 1 1 1
5 commit 1 ok
5 admit 2 2 2
end 8 0
";

/// "Easy to get wrong", the last case: task 0 writes 1 and commits, and then writes 2, so that
/// task 1 does not clash with it. An empty transaction and two readers do not clash either.
pub const NEW_SETS_TEXT: &str = "\
setup 4
task 5 10 2
task 5 10 1
task 5 10 1
task 5 10 0
0 arrive 0
0 arrive 1
0 arrive 2
0 arrive 3
1 release 0 reads writes 1
2 commit 0
3 release 0 reads 7 writes 2
4 release 1 reads 7 writes 1
5 release 2 reads writes
6 release 3 reads writes
end
";

const NEW_SETS_LINES: &str = "\
setup 4 4
0 arrive 0 ok
0 arrive 1 ok
0 arrive 2 ok
0 arrive 3 ok
1 release 0 run
2 commit 0 ok
3 release 0 run
4 release 1 run
5 release 2 run
6 release 3 no 7
end 9 1
";

/// Task 1 ranks highest and waits for task 0 and for task 2, which ranks above task 0; m is 3. At 6
/// these two execute: 2 + 0 + 0, a retry. At 8 task 2 executes and tasks 0 and 3 are plain:
/// 1 + 2 + 0, no retry.
///
/// With only the plain tasks that rank above it, of which there are none, 8 would be a retry too;
/// and so it would with task 2 gone already: 0 + 2 + 0.
pub const PLAIN_BELOW_TEXT: &str = "\
setup 3
task 10 100 1
task 40 100 1
task 20 100 1
task 5 100 1
0 arrive 0
1 release 0 reads writes 1
2 arrive 2
3 release 2 reads writes 2
4 arrive 1
5 release 1 reads writes 1 2
6 commit 0
7 arrive 3
8 commit 2
9 commit 1
end
";

const PLAIN_BELOW_LINES: &str = "\
setup 3 4
0 arrive 0 ok
1 release 0 run
2 arrive 2 ok
3 release 2 run
4 arrive 1 ok
5 release 1 wait 1 2 2
6 commit 0 ok
7 arrive 3 ok
8 commit 2 ok
8 admit 1 2 1
9 commit 1 ok
end 10 0
";

/// Of the waiting tasks 2 ranks highest, then 1, then 3, which has 1's priority and a higher
/// number; m is 4. From 3 to 10 tasks 0 and 4 execute; the releases of 3 and 1 clash with 0 alone,
/// that of 2 with 4 alone. The commit of 0 at 10 does not clash with task 2. It clashes with task
/// 1, which has task 2 above it: 2 + 0 + 1, a retry. It clashes with task 3, which has 2 and 1
/// above it: 2 + 0 + 2, no retry. Task 1 is admitted; 2 clashes with 4, 3 with 1.
///
/// At 11 tasks 4 and 1 execute and task 0 is plain; the commit of 4 clashes with task 2 alone:
/// 2 + 1 + 0, a retry. At 13 tasks 1 and 2 execute and task 4 is plain; the commit of 1 clashes
/// with task 3: 2 + 1 + 0, a retry.
///
/// At 10, with the waiting tasks below counted too, 1 would have 2 + 0 + 2, no retry. Without the
/// waiting ones, or with only those that clash with task 0, or with task 0 gone already, 3 would
/// have 2 + 0 + 0, 2 + 0 + 1 or 1 + 0 + 2, a retry. After the scan tasks 4 and 1 execute and task 0
/// is plain, so that 1 would have 2 + 1 + 1, no retry.
pub const WAITING_ABOVE_TEXT: &str = "\
setup 4
task 5 100 1
task 10 100 1
task 30 100 1
task 10 100 1
task 7 100 1
0 arrive 0
1 release 0 reads writes 1 3
2 arrive 4
3 release 4 reads writes 2
4 arrive 3
5 release 3 reads 1 3 writes
6 arrive 1
7 release 1 reads writes 1
8 arrive 2
9 release 2 reads 2 writes
10 commit 0
11 commit 4
12 finish 0
13 commit 1
14 commit 3
15 commit 2
end
";

const WAITING_ABOVE_LINES: &str = "\
setup 4 5
0 arrive 0 ok
1 release 0 run
2 arrive 4 ok
3 release 4 run
4 arrive 3 ok
5 release 3 wait 1 2 0
6 arrive 1 ok
7 release 1 wait 1 1 0
8 arrive 2 ok
9 release 2 wait 2 1 4
10 commit 0 ok
10 admit 1 1 1
11 commit 4 ok
11 admit 2 1 1
12 finish 0 ok
13 commit 1 ok
13 admit 3 2 1
14 commit 3 ok
15 commit 2 ok
end 16 0
";

/// At 19 task 6 releases; m is 7. Tasks 0 to 5 execute, so that it has room, 6 + 0, and tasks 7 and
/// 8 wait. With what task 6 reads, 10 20 28 90, and writes, 25 200, their transactions clash thus:
///
/// | task | state     | priority | reads | writes | clash |
/// |------|-----------|----------|-------|--------|-------|
/// | 0    | executing | 20       | 25    |        | on 25 |
/// | 1    | executing | 70       | 10    |        | none: both only read 10 |
/// | 2    | executing | 30       |       | 20     | on 20 |
/// | 3    | executing | 40       |       | 28     | on 28 |
/// | 4    | executing | 10       | 25    |        | on 25 |
/// | 5    | executing | 40       |       | 200    | on 200 |
/// | 7    | waiting   | 90       |       | 28     | on 28, but it does not execute |
/// | 8    | waiting   | 60       |       | 90     | on 90, but it does not execute |
///
/// Contested are 20, 25, 28 and 200, so that the lowest is 20 and they are 4. Of the executing ones
/// that clash, 0, 2, 3, 4 and 5, the highest priority is 40, which 3 and 5 have, and 3 is the lower
/// number: task 6 waits for 3.
///
/// Another reading gives another number: the first in number 0; the highest ranked executing one,
/// or the highest ranked that shares an object, 1; the one with the lowest contested object 2; the
/// lowest ranked 4; of equal priorities the higher number, or the last in number, 5; the task
/// itself 6; the highest ranked one that clashes, if it waits too, 7; and after the scan, which
/// admits 8, the highest ranked executing one that clashes is 8.
///
/// Before that, 8 waits for 1, which writes 90 at first, and 7 waits for 3. Just before the commit
/// of 1 at 17 tasks 0 to 5 execute, 6 is plain and 7 waits above 8: 6 + 1 + 1, a clash of 8 and no
/// retry. Then 8 clashes with no executing one, but has no room: 0, 2, 3, 4 and 5 execute, and 1
/// and 6 are plain above it, 5 + 2. At 18 task 1 has room, 5 + 1, and runs. The scan at 19 looks at
/// 7, which clashes with 3, at 6, and at 8, which now has room: 6 + 0.
const WAITED_FOR_TEXT: &str = "\
setup 7
task 20 100 1
task 70 100 2
task 30 100 1
task 40 100 1
task 10 100 1
task 40 100 1
task 80 100 1
task 90 100 1
task 60 100 1
0 arrive 4
1 release 4 reads 25 writes
2 arrive 5
3 release 5 reads writes 200
4 arrive 0
5 release 0 reads 25 writes
6 arrive 3
7 release 3 reads writes 28
8 arrive 2
9 release 2 reads writes 20
10 arrive 1
11 release 1 reads writes 90
12 arrive 8
13 release 8 reads writes 90
14 arrive 7
15 release 7 reads writes 28
16 arrive 6
17 commit 1
18 release 1 reads 10 writes
19 release 6 reads 10 20 28 90 writes 25 200
end
";

const WAITED_FOR_LINES: &str = "\
setup 7 9
0 arrive 4 ok
1 release 4 run
2 arrive 5 ok
3 release 5 run
4 arrive 0 ok
5 release 0 run
6 arrive 3 ok
7 release 3 run
8 arrive 2 ok
9 release 2 run
10 arrive 1 ok
11 release 1 run
12 arrive 8 ok
13 release 8 wait 90 1 1
14 arrive 7 ok
15 release 7 wait 28 1 3
16 arrive 6 ok
17 commit 1 ok
18 release 1 run
19 release 6 wait 20 4 3
19 admit 8 1 0
end 20 0
";

/// In mode 0 task 1 ranks highest, then 2, then 3, then 0. In mode 1 the deadlines are 1000, 501,
/// 53 and 600: task 2 ranks highest, then 1, then 3, then 0; m is 3.
///
/// At 5 task 0 executes, task 3 is plain, and 1 and 2 wait for objects of their own. The higher one
/// has 1 + 1 + 0, a retry, the lower one 1 + 1 + 1, none; both are admitted, the higher one first.
/// At 6 both execute and task 3 clashes with both: it waits for the higher one. It has room, 2 + 0.
///
/// At 7, 2 + 1 + 0, and at 8, 1 + 2 + 0, task 3 has a clash and no retry. At 8 it is admitted: 1
/// and 2 are plain above it, 0 + 2. At 9 task 0 is below these two, and 3 executes: 1 + 2.
const ORDER_TEXTS: [&str; 3] = by_setup!(
    "3",
    "\
task 10 1000 1
task 30 500 1
task 20 50 1
task 15 600 1
0 arrive 0
0 release 0 reads writes 1 2
0 arrive 3
1 arrive 1
2 release 1 reads writes 1
3 arrive 2
4 release 2 reads writes 2
5 commit 0
6 release 3 reads 1 2 writes
7 commit 1
8 commit 2
9 finish 0
end
"
);

pub const ORDER_IN_MODE_0_TEXT: &str = ORDER_TEXTS[1];
pub const ORDER_IN_MODE_1_TEXT: &str = ORDER_TEXTS[2];

const ORDER_IN_MODE_0_LINES: &str = "\
setup 3 4
0 arrive 0 ok
0 release 0 run
0 arrive 3 ok
1 arrive 1 ok
2 release 1 wait 1 1 0
3 arrive 2 ok
4 release 2 wait 2 1 0
5 commit 0 ok
5 admit 1 1 1
5 admit 2 1 0
6 release 3 wait 1 2 1
7 commit 1 ok
8 commit 2 ok
8 admit 3 2 0
9 finish 0 no 6
end 11 1
";

const ORDER_IN_MODE_1_LINES: &str = "\
setup 3 4
0 arrive 0 ok
0 release 0 run
0 arrive 3 ok
1 arrive 1 ok
2 release 1 wait 1 1 0
3 arrive 2 ok
4 release 2 wait 2 1 0
5 commit 0 ok
5 admit 2 1 1
5 admit 1 1 0
6 release 3 wait 1 2 2
7 commit 1 ok
8 commit 2 ok
8 admit 3 2 0
9 finish 0 no 6
end 11 1
";

/// Tasks 0, 1 and 2 have the deadlines 40 + 60, 10 + 90 and 0 + 100, all equal, so that the lower
/// number ranks higher: neither the earlier arrival nor the higher priority decides. m is 3. Task
/// 3 has the deadline 20, and 65 with its second job: it ranks above all of them.
///
/// At 42 task 3 executes and the others wait: 1 + 0 + 0 for task 0 and 1 + 0 + 1 for task 1, a
/// retry each; 1 + 0 + 2 for task 2, none. Tasks 0 and 1 are admitted; 2 clashes with 0, which
/// reads 5. At 44 tasks 0 and 1 execute: 2 + 0 + 0, a retry of task 2, which is then admitted, with
/// task 0 plain above it: 1 + 1.
///
/// At 46 task 3 clashes with 1 and with 2, and waits for the lower number. At 47, 2 + 1 + 0, and at
/// 48, 1 + 2 + 0, it has a clash and no retry. At 49 task 3 executes and 0 and 1 are plain above 2,
/// 1 + 2, until 0 has finished.
const EQUAL_TEXT: &str = "\
setup 3 mode 1
task 1 60 1
task 2 90 1
task 3 100 1
task 4 20 1
0 arrive 2
0 arrive 3
1 release 3 reads writes 5 6
2 release 2 reads writes 5
10 arrive 1
11 release 1 reads writes 6
40 arrive 0
41 release 0 reads 5 writes
42 commit 3
43 finish 3
44 commit 0
45 arrive 3
46 release 3 reads 5 6 writes
47 commit 2
48 commit 1
49 finish 2
49 finish 0
49 finish 2
end
";

const EQUAL_LINES: &str = "\
setup 3 4
0 arrive 2 ok
0 arrive 3 ok
1 release 3 run
2 release 2 wait 5 1 3
10 arrive 1 ok
11 release 1 wait 6 1 3
40 arrive 0 ok
41 release 0 wait 5 1 3
42 commit 3 ok
42 admit 0 1 1
42 admit 1 1 1
43 finish 3 ok
44 commit 0 ok
44 admit 2 2 1
45 arrive 3 ok
46 release 3 wait 5 2 1
47 commit 2 ok
48 commit 1 ok
48 admit 3 2 0
49 finish 2 no 6
49 finish 0 ok
49 finish 2 ok
end 17 1
";

/// The deadlines, in rank order; m is 5:
///
/// | task | deadline |
/// |------|----------|
/// | 1    | MAX - 90 + 60 = MAX - 30 |
/// | 2    | MAX - 20 + 30 = MAX + 10 |
/// | 0    | MAX - 50 + 100 = MAX + 50 |
/// | 3    | MAX + 86,399,000 |
/// | 4    | MAX - 100 + 86,400,000 = MAX + 86,399,900 |
/// | 5    | MAX + 86,400,000 = 4,381,367,295, the last one that there is |
///
/// Task 4's commit admits 1, 2, 0 and 3, which wait for an object each, while 5 is plain: with
/// 1 + 1 + 0, 1 + 1 + 1 and 1 + 1 + 2 a retry each, with 1 + 1 + 3 none. Cut to 32 bits the
/// deadline of task 1 would be the last of the four; held at MAX, task 0 would come before 2.
///
/// Then these four execute, and 5 is below 4, 4 + 1, until 4 has finished. Task 5 clashes with all
/// four: it waits for 1. After its commit task 1 clashes with the other three: it waits for 2.
pub const LATE_TEXT: &str = "\
setup 5 mode 1
task 9 100 1
task 1 60 2
task 5 30 1
task 8 86399000 1
task 2 86400000 1
task 9 86400000 1
4294967195 arrive 4
4294967195 release 4 reads writes 10 11 12 13
4294967205 arrive 1
4294967205 release 1 reads writes 11
4294967245 arrive 0
4294967245 release 0 reads writes 10
4294967275 arrive 2
4294967275 release 2 reads writes 12
4294967295 arrive 3
4294967295 release 3 reads writes 13
4294967295 arrive 5
4294967295 commit 4
4294967295 finish 5
4294967295 finish 4
4294967295 release 5 reads 10 11 12 13 writes
4294967295 commit 1
4294967295 release 1 reads 10 12 13 writes
end
";

const LATE_LINES: &str = "\
setup 5 6
4294967195 arrive 4 ok
4294967195 release 4 run
4294967205 arrive 1 ok
4294967205 release 1 wait 11 1 4
4294967245 arrive 0 ok
4294967245 release 0 wait 10 1 4
4294967275 arrive 2 ok
4294967275 release 2 wait 12 1 4
4294967295 arrive 3 ok
4294967295 release 3 wait 13 1 4
4294967295 arrive 5 ok
4294967295 commit 4 ok
4294967295 admit 1 1 1
4294967295 admit 2 1 1
4294967295 admit 0 1 1
4294967295 admit 3 1 0
4294967295 finish 5 no 6
4294967295 finish 4 ok
4294967295 release 5 wait 10 4 1
4294967295 commit 1 ok
4294967295 release 1 wait 10 3 2
end 16 1
";

/// Tasks 0 and 1 wait for task 2 twice, an object each; task 3, with the latest deadline, is plain.
/// With 0's first job the deadlines are 10 and 15, and task 0 ranks above 1. With its second one,
/// which arrives at 10, it has 20 and ranks below 1, whose job is still the same. m is 3: the
/// higher one has 1 + 1 + 0, a retry, and the lower one 1 + 1 + 1, none.
const CHANGE_TEXT: &str = "\
setup 3 mode 1
task 9 10 1
task 1 15 2
task 5 1000 2
task 7 5000 1
0 arrive 2
0 release 2 reads writes 1 2
0 arrive 3
0 arrive 0
0 arrive 1
1 release 1 reads writes 1
2 release 0 reads writes 2
3 commit 2
4 commit 0
5 commit 1
6 finish 0
7 release 2 reads writes 1 2
10 arrive 0
11 release 0 reads writes 2
12 release 1 reads writes 1
13 commit 2
end
";

const CHANGE_LINES: &str = "\
setup 3 4
0 arrive 2 ok
0 release 2 run
0 arrive 3 ok
0 arrive 0 ok
0 arrive 1 ok
1 release 1 wait 1 1 2
2 release 0 wait 2 1 2
3 commit 2 ok
3 admit 0 1 1
3 admit 1 1 0
4 commit 0 ok
5 commit 1 ok
6 finish 0 ok
7 release 2 run
10 arrive 0 ok
11 release 0 wait 2 1 2
12 release 1 wait 1 1 2
13 commit 2 ok
13 admit 1 1 1
13 admit 0 1 0
end 16 0
";

/// Task 0 waits with the deadline 1002. Task 1 arrives 48 ticks later, with 150, and wants the same
/// object; m is 2. At 52 task 2, with 500, commits: 1 + 0 + 0 for task 1, a retry, and 1 + 0 + 1
/// for task 0, none. Task 1 is admitted, and 0 clashes with it. At 53 task 0 has a clash and no
/// retry, 1 + 1 + 0, and no room: 1 and 2 are plain above it. At 54 it has: 0 + 1.
pub const OVERTAKEN_TEXT: &str = "\
setup 2 mode 1
task 9 1000 1
task 1 100 1
task 5 500 1
0 arrive 2
1 release 2 reads writes 7
2 arrive 0
3 release 0 reads writes 7
50 arrive 1
51 release 1 reads writes 7
52 commit 2
53 commit 1
54 finish 1
end
";

const OVERTAKEN_LINES: &str = "\
setup 2 3
0 arrive 2 ok
1 release 2 run
2 arrive 0 ok
3 release 0 wait 7 1 2
50 arrive 1 ok
51 release 1 wait 7 1 2
52 commit 2 ok
52 admit 1 1 1
53 commit 1 ok
54 finish 1 ok
54 admit 0 2 0
end 9 0
";

/// There is one processor. Task 0, with the deadline 1000, has it until task 1 arrives with 150,
/// and again when that one has finished. Task 1's second job has 1010: task 0 keeps the processor.
const LOST_TEXT: &str = "\
setup 1 mode 1
task 9 1000 3
task 1 50 1
0 arrive 0
1 release 0 reads writes 1
2 commit 0
100 arrive 1
101 release 0 reads writes 1
101 finish 0
102 release 1 reads writes 1
103 commit 1
104 finish 0
105 finish 1
106 release 0 reads writes 1
107 commit 0
960 arrive 1
961 release 1 reads writes 1
962 finish 0
963 release 1 reads writes 1
end
";

const LOST_LINES: &str = "\
setup 1 2
0 arrive 0 ok
1 release 0 run
2 commit 0 ok
100 arrive 1 ok
101 release 0 no 6
101 finish 0 no 6
102 release 1 run
103 commit 1 ok
104 finish 0 no 6
105 finish 1 ok
106 release 0 run
107 commit 0 ok
960 arrive 1 ok
961 release 1 no 6
962 finish 0 ok
963 release 1 run
end 12 4
";

/// The session of 01 with comments, blank lines and line ends of another system.
pub const COMMENTED_TEXT: &str = "\
# The session of 01.
setup 2 # processors
\ttask 10 100 2# priority, period, transactions
task 30 50 1\r
  # Nothing but a comment.
task 20 80 1
0 arrive 0 # first
1 release 0 reads writes 4 # 7 is no object here
2 arrive 1
3 release 1 reads 4 writes 7

4 arrive 2
5 release 2 reads writes 7 #
6 commit 0 # # setup 3
7 commit 2
8 finish 0
8 commit 1
9 finish 1
10 finish 0
11 finish 2
12 arrive 1
end # of the session
# Nothing more.
";

/// Texts that have no log, with the line in which that shows, and some of the words that say it.
pub const BAD_TEXTS: [(usize, &str, &str); 48] = [
    (1, "no `setup` line", ""),
    (2, "no `setup` line", "# only a comment\n"),
    (
        1,
        "begins with `setup PROCESSORS [mode MODE]`",
        "task 1 1 1\nend\n",
    ),
    (
        2,
        "begins with `setup PROCESSORS [mode MODE]`",
        "# setup 1\nend\n",
    ),
    (1, "0 words behind it, not 1", "setup\nend\n"),
    (1, "0 words behind it, not 1", "setup # 2\nend\n"),
    (1, "2 words behind it, not 1", "setup 2 3\nend\n"),
    (1, "2 words behind it, not 1", "setup 2 mode\nend\n"),
    (1, "or 3 with `mode`", "setup 2 size 1\nend\n"),
    (
        1,
        "the number of processors: a number from 1 to 16",
        "setup mode mode 1\nend\n",
    ),
    (
        1,
        "the mode: a number from 0 to 1",
        "setup 2 mode 2\ntask 1 1 1\nend\n",
    ),
    (
        1,
        "the number of processors: a number from 1 to 16",
        "setup 256\ntask 1 1 1\nend\n",
    ),
    (
        1,
        "the number of processors: a number from 1 to 16",
        "setup 17\ntask 1 1 1\nend\n",
    ),
    (
        1,
        "the number of processors: a number from 1 to 16",
        "setup +1\ntask 1 1 1\nend\n",
    ),
    (2, "no `task` line", "setup 1\nend\n"),
    (2, "no `task` line", "setup 1\n0 arrive 0\nend\n"),
    (2, "2 words behind it, not 3", "setup 1\ntask 1 1\nend\n"),
    (
        2,
        "4 words behind it, not 3",
        "setup 1\ntask 0 1 1 1\nend\n",
    ),
    (
        3,
        "the priority: a number from 1 to 65535",
        "setup 1\n\ntask 65536 1 1\nend\n",
    ),
    (
        2,
        "the priority: a number from 1 to 65535",
        "setup 1\ntask 0 1 1\nend\n",
    ),
    (
        2,
        "the period: a number from 1 to 86400000",
        "setup 1\ntask 1 86400001 1\nend\n",
    ),
    (
        2,
        "the number of transactions: a number from 0 to 255",
        "setup 1\ntask 1 1 256\nend\n",
    ),
    (3, "a second `setup`", "setup 1\ntask 1 1 1\nsetup 1\nend\n"),
    (
        4,
        "a second `setup`",
        "setup 1\ntask 1 1 1\n0 arrive 0\nsetup 1\nend\n",
    ),
    (
        3,
        "the tick: a number from 0 to 4294967295",
        "setup 1\ntask 1 1 1\n4294967296 arrive 0\n",
    ),
    (
        3,
        "the task: a number from 0 to 255",
        "setup 1\ntask 1 1 1\n0 arrive 256\nend\n",
    ),
    (
        3,
        "unknown event `leave`",
        "setup 1\ntask 1 1 1\n0 leave 0\nend\n",
    ),
    (
        3,
        "the tick is missing: `TICK arrive TASK`",
        "setup 1\ntask 1 1 1\narrive 0\nend\n",
    ),
    (
        3,
        "the task is missing: `TICK commit TASK`",
        "setup 1\ntask 1 1 1\n0 commit\nend\n",
    ),
    (
        3,
        "nothing stands behind the task",
        "setup 1\ntask 1 1 1\n0 arrive 0 ok\nend\n",
    ),
    (3, "`7` begins no line", "setup 1\ntask 1 1 1\n7\nend\n"),
    (
        3,
        "`Task` begins no line",
        "setup 1\ntask 1 1 1\nTask 1 1 1\nend\n",
    ),
    (
        3,
        "`-1` cannot be the tick",
        "setup 1\ntask 1 1 1\n-1 arrive 0\nend\n",
    ),
    (
        3,
        "`reads` cannot be the task",
        "setup 1\ntask 1 1 1\n0 release reads writes\nend\n",
    ),
    (1, "not with `\\u{1a}\\0\\u{1}\\0`", "\x1a\0\x01\0"),
    (
        3,
        "`reads` is missing",
        "setup 1\ntask 1 1 1\n0 release 0\nend\n",
    ),
    (
        3,
        "`reads` is missing",
        "setup 1\ntask 1 1 1\n0 release 0 writes 4\nend\n",
    ),
    (
        3,
        "`writes` is missing",
        "setup 1\ntask 1 1 1\n0 release 0 reads 1\nend\n",
    ),
    (
        3,
        "an object: a number from 0 to 255",
        "setup 1\ntask 1 1 1\n0 release 0 reads writes 256\n",
    ),
    (
        3,
        "`lists` cannot be an object",
        "setup 1\ntask 1 1 1\n0 release 0 reads lists writes\nend\n",
    ),
    (
        3,
        "`reads` is missing",
        "setup 1\ntask 1 1 1\n0 release 0 lists\nend\n",
    ),
    (
        3,
        "nothing stands behind the task",
        "setup 1\ntask 1 1 1\n0 arrive 0 lists\nend\n",
    ),
    (
        4,
        "`lists` stands in every release of a text or in none",
        "setup 1\ntask 1 1 1\n0 release 0 lists reads writes\n0 release 0 reads writes\nend\n",
    ),
    (
        5,
        "`lists` stands in every release of a text or in none",
        "setup 1\ntask 1 1 1\n0 release 9 reads writes\n0 arrive 0\n0 release 0 lists reads writes\n",
    ),
    (
        4,
        "a `task` line after an event",
        "setup 1\ntask 1 1 1\n0 arrive 0\ntask 1 1 1\nend\n",
    ),
    (4, "a line after `end`", "setup 1\ntask 1 1 1\nend\nend\n"),
    (
        3,
        "nothing stands behind `end`",
        "setup 1\ntask 1 1 1\nend 0\n",
    ),
    (4, "no `end` line", "setup 1\ntask 1 1 1\n0 arrive 0\n"),
];
