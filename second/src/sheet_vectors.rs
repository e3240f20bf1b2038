//! Lists of sessions with the sheets they must have, computed by hand from the documents.
//!
//! MAX in a comment stands for 4,294,967,295, the last tick and the most that a total may be. The
//! waits of one task in one session never sum to more than that, so 41 takes two logs at least.
//!
//! A sum of three in a comment is the one that decides on a retry, just before a commit: executing
//! tasks + plain tasks + waiting tasks ranked above.

use crate::vectors::{DEFERRED_TEXT, NEW_SETS_TEXT, PAIR_TEXT, PLAIN_BELOW_TEXT};
use crate::vectors::{LATE_TEXT, ORDER_IN_MODE_0_TEXT, ORDER_IN_MODE_1_TEXT, OVERTAKEN_TEXT};
use crate::vectors::{WAITING_ABOVE_TEXT, WHOLE_IN_MODE_0_TEXT, WHOLE_IN_MODE_1_TEXT, WHOLE_TEXT};

/// Sessions in readable text, in their order, and the sheet over them.
pub struct WrittenList {
    pub name: &'static str,
    pub texts: &'static [&'static str],
    pub sheet: &'static str,
}

pub const LISTS: [WrittenList; 23] = [
    WrittenList {
        name: "the session of 01 twice",
        texts: &[WHOLE_TEXT, WHOLE_TEXT],
        sheet: WHOLE_TWICE_SHEET,
    },
    WrittenList {
        name: "the session of 01 once",
        texts: &[WHOLE_TEXT],
        sheet: WHOLE_ONCE_SHEET,
    },
    WrittenList {
        name: "an admission by a deferred release, whose own wait stays open",
        texts: &[DEFERRED_TEXT, DEFERRED_TEXT],
        sheet: DEFERRED_SHEET,
    },
    WrittenList {
        name: "a wait booked and its transaction not committed",
        texts: &[PAIR_TEXT],
        sheet: PAIR_SHEET,
    },
    WrittenList {
        name: "no wait at all",
        texts: &[NEW_SETS_TEXT],
        sheet: NEW_SETS_SHEET,
    },
    WrittenList {
        name: "a wait with more clashes than retries",
        texts: &[PLAIN_BELOW_TEXT],
        sheet: PLAIN_BELOW_SHEET,
    },
    WrittenList {
        name: "totals of clashes and of retries",
        texts: &[WAITING_ABOVE_TEXT, WAITING_ABOVE_TEXT],
        sheet: WAITING_ABOVE_SHEET,
    },
    WrittenList {
        name: "eleven waits",
        texts: &[ELEVEN_TEXT],
        sheet: ELEVEN_SHEET,
    },
    WrittenList {
        name: "four waits that one commit ends",
        texts: &[FOUR_TEXT],
        sheet: FOUR_SHEET,
    },
    WrittenList {
        name: "a session that ends in the middle, and the next one",
        texts: &[OPEN_TEXT, NONE_OPEN_TEXT],
        sheet: NONE_OPEN_SHEET,
    },
    WrittenList {
        name: "refused events",
        texts: &[REFUSED_TEXT],
        sheet: REFUSED_SHEET,
    },
    WrittenList {
        name: "41 and what comes after",
        texts: &[FULL_TEXT, AFTER_TEXT],
        sheet: AFTER_SHEET,
    },
    WrittenList {
        name: "41 for a release that opens a wait",
        texts: &[ALMOST_FULL_TEXT, OPENS_TEXT],
        sheet: OPENS_SHEET,
    },
    WrittenList {
        name: "41 for the first of two admissions",
        texts: &[FIRST_FULL_TEXT, TWO_TEXT],
        sheet: FIRST_FULL_SHEET,
    },
    WrittenList {
        name: "41 for the last of two admissions",
        texts: &[LAST_FULL_TEXT, TWO_TEXT],
        sheet: LAST_FULL_SHEET,
    },
    WrittenList {
        name: "41 for the commit of one that had waited",
        texts: &[FIRST_FULL_TEXT, CHAIN_TEXT],
        sheet: CHAIN_SHEET,
    },
    WrittenList {
        name: "the session of 01 in kind 1, and in kind 7 with mode 0",
        texts: &[WHOLE_TEXT, WHOLE_IN_MODE_0_TEXT],
        sheet: WHOLE_TWICE_SHEET,
    },
    WrittenList {
        name: "the session of 01 in kind 7 with mode 0, and in kind 1",
        texts: &[WHOLE_IN_MODE_0_TEXT, WHOLE_TEXT],
        sheet: WHOLE_TWICE_SHEET,
    },
    WrittenList {
        name: "the session of 01 in mode 1 twice",
        texts: &[WHOLE_IN_MODE_1_TEXT, WHOLE_IN_MODE_1_TEXT],
        sheet: WHOLE_TWICE_SHEET,
    },
    WrittenList {
        name: "two tasks in the order of mode 0",
        texts: &[ORDER_IN_MODE_0_TEXT],
        sheet: ORDER_IN_MODE_0_SHEET,
    },
    WrittenList {
        name: "the same two in the order of mode 1",
        texts: &[ORDER_IN_MODE_1_TEXT],
        sheet: ORDER_IN_MODE_1_SHEET,
    },
    WrittenList {
        name: "a waiting task overtaken by a later arrival, twice",
        texts: &[OVERTAKEN_TEXT, OVERTAKEN_TEXT],
        sheet: OVERTAKEN_SHEET,
    },
    WrittenList {
        name: "deadlines past the last tick",
        texts: &[LATE_TEXT],
        sheet: LATE_SHEET,
    },
];

/// In each session: 0, 2 and 1 commit once, and only 1 had waited, from 3 to 7, with 2 clashes and
/// no retry. Twice: clashes 2 + 2, ticks 4 + 4. Of the waits 4 4, k = 2: middle number 1, nine
/// tenths number ⌈18/10⌉ = 2.
const WHOLE_TWICE_SHEET: &str = "\
logs 2
task committed waited clashes retries longest ticks waits
0 2 0 0 0 0 0 0
1 2 2 4 0 4 8 2
2 2 0 0 0 0 0 0
middle 4
ninetenths 4
most 1
left 0
";

/// The same once. k = 1: numbers ⌈1/2⌉ = 1 and ⌈9/10⌉ = 1.
const WHOLE_ONCE_SHEET: &str = "\
logs 1
task committed waited clashes retries longest ticks waits
0 1 0 0 0 0 0 0
1 1 1 2 0 4 4 1
2 1 0 0 0 0 0 0
middle 4
ninetenths 4
most 1
left 0
";

/// In each session: 0 commits at 7. Task 3's release at 8 admits 1, which waited from 3, 5 ticks,
/// with 1 clash and no retry, and does not commit. Task 3's own wait is open at the end: not
/// booked.
const DEFERRED_SHEET: &str = "\
logs 2
task committed waited clashes retries longest ticks waits
0 2 0 0 0 0 0 0
1 0 0 2 0 5 10 2
2 0 0 0 0 0 0 0
3 0 0 0 0 0 0 0
middle 5
ninetenths 5
most 1
left 0
";

/// Task 1 waits from 3 to 4 with 1 clash and commits at 5. Task 2 waits from 2 to 5 with 2
/// clashes, booked at 5; it never commits. Each clash is a retry. Of 1 3, k = 2: middle number 1,
/// nine tenths number 2.
const PAIR_SHEET: &str = "\
logs 1
task committed waited clashes retries longest ticks waits
0 1 0 0 0 0 0 0
1 1 1 1 1 1 1 1
2 0 0 2 2 3 3 1
middle 1
ninetenths 3
most 2 1
left 0
";

/// Task 0 commits once, and none waits: k = 0.
const NEW_SETS_SHEET: &str = "\
logs 1
task committed waited clashes retries longest ticks waits
0 1 0 0 0 0 0 0
1 0 0 0 0 0 0 0
2 0 0 0 0 0 0 0
3 0 0 0 0 0 0 0
middle 0
ninetenths 0
most
left 0
";

/// Task 1 waits from 5 to 8 with 2 clashes, of which the first is a retry. Tasks 0, 2 and 1 commit
/// once, and task 3 never. k = 1.
const PLAIN_BELOW_SHEET: &str = "\
logs 1
task committed waited clashes retries longest ticks waits
0 1 0 0 0 0 0 0
1 1 1 2 1 3 3 1
2 1 0 0 0 0 0 0
3 0 0 0 0 0 0 0
middle 3
ninetenths 3
most 1
left 0
";

/// In each session all five commit once. Task 1 waits from 7 to 10, 3 ticks, and task 2 from 9 to
/// 11, 2 ticks, with 1 clash and 1 retry each; task 3 from 5 to 13, 8 ticks, with 2 clashes and 1
/// retry. Of 2 2 3 3 8 8, k = 6: middle number 3, nine tenths number ⌈54/10⌉ = 6.
const WAITING_ABOVE_SHEET: &str = "\
logs 2
task committed waited clashes retries longest ticks waits
0 2 0 0 0 0 0 0
1 2 2 2 2 3 6 2
2 2 2 2 2 2 4 2
3 2 2 4 2 8 16 2
4 2 0 0 0 0 0 0
middle 3
ninetenths 8
most 3 1 2
left 0
";

/// Eleven times task 0 executes, task 1 waits for it, and both commit. Each time no third task is
/// there: 1 + 0 + 0 is below 2, so the clash is a retry.
const ELEVEN_TEXT: &str = "\
setup 2
task 10 100 11
task 20 100 11
0 arrive 0
0 arrive 1
# 7 ticks
0 release 0 reads writes 1
0 release 1 reads writes 1
7 commit 0
7 commit 1
# 3 ticks
10 release 0 reads writes 1
11 release 1 reads writes 1
14 commit 0
14 commit 1
# 11 ticks
20 release 0 reads writes 1
20 release 1 reads writes 1
31 commit 0
31 commit 1
# 1 tick
40 release 0 reads writes 1
45 release 1 reads writes 1
46 commit 0
48 commit 1
# 9 ticks
50 release 0 reads writes 1
50 release 1 reads writes 1
59 commit 0
59 commit 1
# 5 ticks
60 release 0 reads writes 1
60 release 1 reads writes 1
65 commit 0
65 commit 1
# 2 ticks
70 release 0 reads writes 1
70 release 1 reads writes 1
72 commit 0
72 commit 1
# 10 ticks
80 release 0 reads writes 1
80 release 1 reads writes 1
90 commit 0
90 commit 1
# 4 ticks
100 release 0 reads writes 1
100 release 1 reads writes 1
104 commit 0
104 commit 1
# 8 ticks
110 release 0 reads writes 1
110 release 1 reads writes 1
118 commit 0
118 commit 1
# 6 ticks
120 release 0 reads writes 1
120 release 1 reads writes 1
126 commit 0
126 commit 1
end
";

/// The waits are 1 to 11 in another order: the longest 11, the sum 66, each with 1 clash and 1
/// retry. k = 11: middle number ⌈11/2⌉ = 6, nine tenths number ⌈99/10⌉ = 10.
const ELEVEN_SHEET: &str = "\
logs 1
task committed waited clashes retries longest ticks waits
0 11 0 0 0 0 0 0
1 11 11 11 11 11 66 11
middle 6
ninetenths 10
most 1
left 0
";

/// Four tasks wait for task 0, each for an object of its own; its commit at 10 admits them all.
const FOUR_TEXT: &str = "\
setup 8
task 1 100 1
task 1 100 1
task 1 100 1
task 1 100 1
task 1 100 1
0 arrive 0
0 arrive 1
0 arrive 2
0 arrive 3
0 arrive 4
0 release 0 reads writes 1 2 3 4
1 release 2 reads writes 2
5 release 3 reads 3 writes
5 release 1 reads writes 1
10 release 4 reads 4 writes
10 commit 0
11 commit 4
end
";

/// One event books a commit and four waits: of 1, 10 - 5 = 5 ticks; of 2, 10 - 1 = 9; of 3, 5; of
/// 4, 0 ticks, which is a wait too. Each has 1 clash, and a retry: for task 4, which has three
/// above it, 1 + 0 + 3 is below 8. Of 0 5 5 9, k = 4: middle number 2, nine tenths number
/// ⌈36/10⌉ = 4. Tasks 1 and 3 have equal ticks: the lower number first.
const FOUR_SHEET: &str = "\
logs 1
task committed waited clashes retries longest ticks waits
0 1 0 0 0 0 0 0
1 0 0 1 1 5 5 1
2 0 0 1 1 9 9 1
3 0 0 1 1 5 5 1
4 1 1 1 1 0 0 1
middle 5
ninetenths 9
most 2 1 3 4
left 0
";

/// At the end task 2 executes a transaction that had waited, and task 1's wait is open.
const OPEN_TEXT: &str = "\
setup 3
task 10 100 5
task 20 100 5
task 30 100 5
0 arrive 0
0 arrive 1
0 arrive 2
1 release 0 reads writes 1
2 release 2 reads writes 1
3 commit 0
3 release 1 reads writes 1
end
";

/// Tasks 1 and 2 first run at once and commit; then task 1 waits from 8 to 10.
const NONE_OPEN_TEXT: &str = "\
setup 3
task 10 100 5
task 20 100 5
task 30 100 5
0 arrive 0
0 arrive 1
0 arrive 2
4 release 1 reads writes 1
5 release 2 reads writes 2
6 commit 1
6 commit 2
7 release 0 reads writes 1
8 release 1 reads writes 1
10 commit 0
end
";

/// The first session books a commit of 0 and a wait of 2, from 2 to 3 with 1 clash, a retry: task 0
/// executes and task 1 is plain, 1 + 1 + 0, and m is 3. In the second one the commits of 1 and 2 at
/// 6 are of transactions that had not waited, and the wait of 1 booked at 10 runs from 8: 2 ticks,
/// with 1 clash, a retry: task 0 executes and task 2 is plain. Of 1 2, k = 2: numbers 1 and 2.
const NONE_OPEN_SHEET: &str = "\
logs 2
task committed waited clashes retries longest ticks waits
0 2 0 0 0 0 0 0
1 1 0 1 1 2 2 1
2 1 0 1 1 1 1 1
middle 1
ninetenths 2
most 1 2
left 0
";

/// Refused are: commits when absent, waiting, plain (4) and of no task (1); a release when waiting
/// (4); a commit before the last accepted tick (2), and a release not on a processor (6).
const REFUSED_TEXT: &str = "\
setup 2
task 10 100 5
task 20 100 5
task 5 100 5
0 commit 0
0 arrive 0
0 arrive 1
0 arrive 2
1 release 0 reads writes 1
2 release 1 reads writes 1
4 release 1 reads writes 1
5 commit 1
5 commit 3
5 commit 255
1 commit 0
6 commit 0
6 release 2 reads writes 1
7 commit 0
8 commit 1
8 commit 1
end
";

/// Accepted are one commit of 0 at 6, which admits 1 after 6 - 2 = 4 ticks with 1 clash, and one
/// commit of 1 at 8. The clash is no retry: task 0 executes and task 2 is plain, although below
/// task 1, 1 + 1 + 0, and m is 2. At 6 task 1 executes and 0 is plain above 2, so 2 is on no
/// processor.
const REFUSED_SHEET: &str = "\
logs 1
task committed waited clashes retries longest ticks waits
0 1 0 0 0 0 0 0
1 1 1 1 0 4 4 1
2 0 0 0 0 0 0 0
middle 4
ninetenths 4
most 1
left 0
";

/// Task 1 waits from 0 to MAX: its ticks come to MAX exactly, which does not pass. In this session
/// and the next the two tasks are alone on two processors, so that each clash is a retry.
const FULL_TEXT: &str = "\
setup 2
task 10 100 5
task 20 100 5
0 arrive 0
0 arrive 1
0 release 0 reads writes 1
0 release 1 reads writes 1
4294967295 commit 0
4294967295 commit 1
end
";

const AFTER_TEXT: &str = "\
setup 2
task 10 100 5
task 20 100 5
0 arrive 0
0 arrive 1
# 0 ticks: MAX + 0 does not pass
5 release 0 reads writes 1
5 release 1 reads writes 1
5 commit 0
6 commit 1
# 1 tick: MAX + 1 passes, so the commit of 0 at 8 is left out with the wait that it ends
7 release 0 reads writes 1
7 release 1 reads writes 1
8 commit 0
9 commit 1
# no wait
10 release 0 reads writes 1
10 commit 0
end
";

/// Committed by 0: at MAX, at 5 and at 10, not at 8: 3. By 1: at MAX, at 6 and at 9, and each had
/// waited, the last one too, although its wait is not booked: 3 and 3. Waits of 1: MAX and 0, with
/// 1 clash and 1 retry each; those of the wait left out stay out. Of 0 MAX, k = 2: numbers 1 and 2.
const AFTER_SHEET: &str = "\
logs 2
task committed waited clashes retries longest ticks waits
0 3 0 0 0 0 0 0
1 3 3 2 2 4294967295 4294967295 2
middle 0
ninetenths 4294967295
most 1
left 1
";

/// Task 1 waits from 0 to MAX - 4, and does not commit. It clashes once, a retry: 1 + 0 + 0, and m
/// is 2.
const ALMOST_FULL_TEXT: &str = "\
setup 2
task 10 100 1
task 20 100 1
task 30 100 1
task 40 100 1
0 arrive 0
0 arrive 1
0 release 0 reads writes 1
0 release 1 reads writes 1
4294967291 commit 0
end
";

/// "Easy to get wrong", the first case, and then the commits of the others. Task 3's release at 8
/// opens its wait and admits task 1.
const OPENS_TEXT: &str = "\
setup 2
task 10 100 1
task 20 100 1
task 30 100 1
task 40 100 1
0 arrive 0
1 release 0 reads writes 1
2 arrive 1
3 release 1 reads writes 1
4 arrive 2
5 release 2 reads writes 2
6 arrive 3
7 commit 0
8 release 3 reads writes 2
10 commit 2
11 commit 1
12 commit 3
end
";

/// Task 1's wait from 3 to 8 would make its ticks MAX - 4 + 5 = MAX + 1: the release at 8 is left
/// out. The wait that it opens still runs from 8: the commit of 2 at 10 admits 3 after 2 ticks
/// with 1 clash and no retry: tasks 1 and 2 execute and task 0 is plain, 2 + 1 + 0, and m is 2. The
/// commit of 1 at 11 is of a transaction that had waited. Committed by 0: once in each session.
/// Waits booked: MAX - 4 and 2; k = 2.
const OPENS_SHEET: &str = "\
logs 2
task committed waited clashes retries longest ticks waits
0 2 0 0 0 0 0 0
1 1 1 1 1 4294967291 4294967291 1
2 1 0 0 0 0 0 0
3 1 1 1 0 2 2 1
middle 2
ninetenths 4294967291
most 1 3
left 1
";

/// Task 1 waits from 0 to MAX. It clashes once, a retry: 1 + 0 + 0, and m is 3.
const FIRST_FULL_TEXT: &str = "\
setup 3
task 10 100 9
task 30 100 9
task 20 100 9
0 arrive 0
0 arrive 1
0 release 0 reads writes 1
0 release 1 reads writes 1
4294967295 commit 0
end
";

/// Task 2 waits from 0 to MAX. It clashes once, a retry: 1 + 0 + 0, and m is 3.
const LAST_FULL_TEXT: &str = "\
setup 3
task 10 100 9
task 30 100 9
task 20 100 9
0 arrive 0
0 arrive 2
0 release 0 reads writes 1
0 release 2 reads writes 1
4294967295 commit 0
end
";

/// The commit of 0 at 5 admits 1 after 3 ticks, and then 2 after 2 ticks, with 1 clash and 1 retry
/// each: 1 + 0 + 0, and 1 + 0 + 1. The commit of 0 at 12 admits 2 after 4 ticks, with 1 clash, a
/// retry: task 1 is plain, 1 + 1 + 0.
const TWO_TEXT: &str = "\
setup 3
task 10 100 9
task 30 100 9
task 20 100 9
0 arrive 0
0 arrive 1
0 arrive 2
1 release 0 reads writes 1 2
2 release 1 reads writes 1
3 release 2 reads writes 2
5 commit 0
6 commit 1
7 commit 2
8 release 0 reads writes 2
8 release 2 reads writes 2
12 commit 0
end
";

/// At 5 task 1 would come to MAX + 3: the commit of 0 and the wait of 2, which would fit, are left
/// out too. At 6 and 7 both had waited. At 12 all fits: 0 has committed at MAX and at 12, and
/// task 2's only wait has 4 ticks. Of 4 MAX, k = 2: numbers 1 and 2.
const FIRST_FULL_SHEET: &str = "\
logs 2
task committed waited clashes retries longest ticks waits
0 2 0 0 0 0 0 0
1 1 1 1 1 4294967295 4294967295 1
2 1 1 1 1 4 4 1
middle 4
ninetenths 4294967295
most 1 2
left 1
";

/// At 5 task 2 would come to MAX + 2: the commit of 0 and the wait of 1, admitted before it, are
/// left out too. At 12 task 2 would come to MAX + 4: left out too. So 0 has committed at MAX only,
/// and 1 has no wait booked, although its transaction had waited. k = 1.
const LAST_FULL_SHEET: &str = "\
logs 2
task committed waited clashes retries longest ticks waits
0 1 0 0 0 0 0 0
1 1 1 0 0 0 0 0
2 1 1 1 1 4294967295 4294967295 1
middle 4294967295
ninetenths 4294967295
most 2
left 2
";

/// Task 2 waits for task 0, and then task 1 for task 2; at last task 2 runs at once.
const CHAIN_TEXT: &str = "\
setup 3
task 10 100 9
task 30 100 9
task 20 100 9
0 arrive 0
0 arrive 1
0 arrive 2
1 release 0 reads writes 1
2 release 2 reads writes 1
3 commit 0
4 release 1 reads writes 1
6 commit 2
7 commit 1
8 release 2 reads writes 1
9 commit 2
end
";

/// At 3 the commit of 0 and the wait of 2, 1 tick with 1 clash, fit; the clash is a retry: task 1
/// is plain, 1 + 1 + 0, and m is 3. At 6 task 1, after 2 ticks, would come to MAX + 2: the commit
/// of 2, which had waited, is left out. At 7 task 1 had waited. At 9 task 2 had not: of its two
/// commits the one that counts had not waited. Of 1 MAX, k = 2.
const CHAIN_SHEET: &str = "\
logs 2
task committed waited clashes retries longest ticks waits
0 2 0 0 0 0 0 0
1 1 1 1 1 4294967295 4294967295 1
2 1 0 1 1 1 1 1
middle 1
ninetenths 4294967295
most 1 2
left 1
";

/// Tasks 0, 1 and 2 commit once, at 5, 7 and 8, and 1 and 2 had waited. Task 1 waits from 2 to 5, 3
/// ticks, and task 2 from 4 to 5, 1 tick, with 1 clash each; 1 ranks higher and has the retry. Task
/// 3 waits from 6 to 8, 2 ticks, with 2 clashes. Of 1 2 3, k = 3: middle number 2, nine tenths
/// number ⌈27/10⌉ = 3.
const ORDER_IN_MODE_0_SHEET: &str = "\
logs 1
task committed waited clashes retries longest ticks waits
0 1 0 0 0 0 0 0
1 1 1 1 1 3 3 1
2 1 1 1 0 1 1 1
3 0 0 2 0 2 2 1
middle 2
ninetenths 3
most 1 3 2
left 0
";

/// The same, but 2 ranks higher and has the retry.
const ORDER_IN_MODE_1_SHEET: &str = "\
logs 1
task committed waited clashes retries longest ticks waits
0 1 0 0 0 0 0 0
1 1 1 1 0 3 3 1
2 1 1 1 1 1 1 1
3 0 0 2 0 2 2 1
middle 2
ninetenths 3
most 1 3 2
left 0
";

/// In each session: 2 and 1 commit once, and 1 had waited, from 51 to 52, 1 tick, with 1 clash and
/// 1 retry. Task 0 waits from 3 to 54, 51 ticks, with 2 clashes, and does not commit. Of 1 1 51 51,
/// k = 4: middle number 2, nine tenths number ⌈36/10⌉ = 4.
const OVERTAKEN_SHEET: &str = "\
logs 2
task committed waited clashes retries longest ticks waits
0 0 0 4 0 51 102 2
1 2 2 2 2 1 2 2
2 2 0 0 0 0 0 0
middle 1
ninetenths 51
most 0 1
left 0
";

/// Tasks 4 and 1 commit once, and 1 had waited. The waits of 1, 0, 2 and 3 end at MAX after 90, 50,
/// 20 and 0 ticks, with 1 clash each, and a retry but for task 3. Those of 5, and of 1 once more,
/// are open at the end. Of 0 20 50 90, k = 4: middle number 2, nine tenths number 4.
const LATE_SHEET: &str = "\
logs 1
task committed waited clashes retries longest ticks waits
0 0 0 1 1 50 50 1
1 1 1 1 1 90 90 1
2 0 0 1 1 20 20 1
3 0 0 1 0 0 0 1
4 1 0 0 0 0 0 0
5 0 0 0 0 0 0 0
middle 20
ninetenths 90
most 1 0 2 3
left 0
";

/// The log of a text, or as many of its first bytes.
pub struct Part {
    pub text: &'static str,
    pub bytes: usize,
}

/// Logs, in their order, over which there is no sheet, with the number that is said instead and
/// the place of the log that is named, from 0.
pub struct WrittenTrouble {
    pub name: &'static str,
    pub logs: &'static [Part],
    pub number: u8,
    pub place: usize,
}

pub const TROUBLES: [WrittenTrouble; 19] = [
    WrittenTrouble {
        name: "an empty log",
        logs: &[EMPTY],
        number: 27,
        place: 0,
    },
    WrittenTrouble {
        name: "an empty log last",
        logs: &[GOOD, EMPTY],
        number: 27,
        place: 1,
    },
    WrittenTrouble {
        name: "an empty log first",
        logs: &[EMPTY, GOOD, OTHER_M],
        number: 27,
        place: 0,
    },
    WrittenTrouble {
        name: "a log cut off, between others",
        logs: &[GOOD, CUT_OFF, GOOD],
        number: 20,
        place: 1,
    },
    WrittenTrouble {
        name: "a log without an end, after two others",
        logs: &[GOOD, GOOD, NO_END],
        number: 27,
        place: 2,
    },
    WrittenTrouble {
        name: "two bad logs: the first one's number",
        logs: &[GOOD, NO_END, CUT_OFF],
        number: 27,
        place: 1,
    },
    WrittenTrouble {
        name: "another m",
        logs: &[GOOD, OTHER_M],
        number: 40,
        place: 1,
    },
    WrittenTrouble {
        name: "another priority",
        logs: &[GOOD, GOOD, OTHER_PRIORITY, GOOD],
        number: 40,
        place: 2,
    },
    WrittenTrouble {
        name: "one task more",
        logs: &[GOOD, ONE_TASK_MORE],
        number: 40,
        place: 1,
    },
    WrittenTrouble {
        name: "one task less",
        logs: &[ONE_TASK_MORE, GOOD, EMPTY],
        number: 40,
        place: 1,
    },
    WrittenTrouble {
        name: "another m in a log cut off: 40 comes first",
        logs: &[GOOD, OTHER_M_CUT_OFF],
        number: 40,
        place: 1,
    },
    WrittenTrouble {
        name: "another m in a log of nothing else: 40 comes first",
        logs: &[GOOD, OTHER_M_ALONE],
        number: 40,
        place: 1,
    },
    WrittenTrouble {
        name: "a setup cut off is no other setup",
        logs: &[GOOD, SETUP_CUT_OFF],
        number: 20,
        place: 1,
    },
    WrittenTrouble {
        name: "a log cut off, then another m",
        logs: &[GOOD, CUT_OFF, OTHER_M],
        number: 20,
        place: 1,
    },
    WrittenTrouble {
        name: "mode 1 after kind 1",
        logs: &[GOOD, MODE_1],
        number: 40,
        place: 1,
    },
    WrittenTrouble {
        name: "kind 1 after mode 1",
        logs: &[MODE_1, MODE_1, GOOD],
        number: 40,
        place: 2,
    },
    WrittenTrouble {
        name: "mode 1 after both kinds of mode 0",
        logs: &[GOOD, MODE_0, GOOD, MODE_1],
        number: 40,
        place: 3,
    },
    WrittenTrouble {
        name: "mode 1 in a log of nothing else: 40 comes first",
        logs: &[MODE_0, MODE_1_ALONE],
        number: 40,
        place: 1,
    },
    WrittenTrouble {
        name: "mode 0 in a log of nothing else, after kind 1: no other setup",
        logs: &[GOOD, MODE_0_ALONE],
        number: 27,
        place: 1,
    },
];

const GOOD: Part = whole(GOOD_TEXT);
const OTHER_M: Part = whole(OTHER_M_TEXT);
const OTHER_PRIORITY: Part = whole(OTHER_PRIORITY_TEXT);
const ONE_TASK_MORE: Part = whole(ONE_TASK_MORE_TEXT);
const MODE_0: Part = whole(MODE_0_TEXT);
const MODE_1: Part = whole(MODE_1_TEXT);

// Two tasks make a setup of 4 + 2 + 2 * 8 = 22 bytes, or 23 with a mode; with an arrival, 4 + 5,
// that is 31, and with an end, 4 + 4, it is 39.
const EMPTY: Part = first(0, GOOD_TEXT);
const SETUP_CUT_OFF: Part = first(21, OTHER_M_TEXT);
const OTHER_M_ALONE: Part = first(22, OTHER_M_TEXT);
const OTHER_M_CUT_OFF: Part = first(30, OTHER_M_TEXT);
const NO_END: Part = first(31, GOOD_TEXT);
const CUT_OFF: Part = first(38, GOOD_TEXT);
const MODE_0_ALONE: Part = first(23, MODE_0_TEXT);
const MODE_1_ALONE: Part = first(23, MODE_1_TEXT);

const fn whole(text: &'static str) -> Part {
    first(usize::MAX, text)
}

const fn first(bytes: usize, text: &'static str) -> Part {
    Part { text, bytes }
}

const GOOD_TEXT: &str = "\
setup 2
task 10 100 2
task 20 100 1
0 arrive 0
end
";

const MODE_0_TEXT: &str = "\
setup 2 mode 0
task 10 100 2
task 20 100 1
0 arrive 0
end
";

const MODE_1_TEXT: &str = "\
setup 2 mode 1
task 10 100 2
task 20 100 1
0 arrive 0
end
";

const OTHER_M_TEXT: &str = "\
setup 3
task 10 100 2
task 20 100 1
0 arrive 0
end
";

const OTHER_PRIORITY_TEXT: &str = "\
setup 2
task 10 100 2
task 21 100 1
0 arrive 0
end
";

const ONE_TASK_MORE_TEXT: &str = "\
setup 2
task 10 100 2
task 20 100 1
task 5 100 1
0 arrive 0
end
";
