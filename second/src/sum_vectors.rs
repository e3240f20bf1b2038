//! Setups with the sums they must have, computed by hand from document 01; and lengths that are
//! none.
//!
//! A comment gives what each task adds to the sums of the others: transactions per job × (⌊length
//! / period⌋ + 2).

use crate::vectors::{WHOLE_IN_MODE_0_TEXT, WHOLE_IN_MODE_1_TEXT, WHOLE_TEXT};

/// A setup in readable text, a length, and the answer.
pub struct WrittenSum {
    pub text: &'static str,
    pub length: u32,
    pub answer: &'static str,
}

const fn sum(text: &'static str, length: u32, answer: &'static str) -> WrittenSum {
    WrittenSum {
        text,
        length,
        answer,
    }
}

pub const SUMS: [WrittenSum; 22] = [
    // 2 × 2 = 4, 1 × 2 = 2, 1 × 2 = 2.
    sum(WHOLE_TEXT, 4, "length 4\ntask sum\n0 4\n1 6\n2 6\n"),
    sum(WHOLE_TEXT, 0, "length 0\ntask sum\n0 4\n1 6\n2 6\n"),
    sum(WHOLE_TEXT, 49, "length 49\ntask sum\n0 4\n1 6\n2 6\n"),
    // 4, 1 × 3 = 3, 2.
    sum(WHOLE_TEXT, 50, "length 50\ntask sum\n0 5\n1 6\n2 7\n"),
    sum(WHOLE_TEXT, 51, "length 51\ntask sum\n0 5\n1 6\n2 7\n"),
    // 4, 3, 1 × 3 = 3.
    sum(WHOLE_TEXT, 99, "length 99\ntask sum\n0 6\n1 7\n2 7\n"),
    // 2 × 3 = 6, 1 × 4 = 4, 3.
    sum(WHOLE_TEXT, 100, "length 100\ntask sum\n0 7\n1 9\n2 10\n"),
    // 2 × (42,949,672 + 2), 85,899,345 + 2, 53,687,091 + 2.
    sum(WHOLE_TEXT, 4_294_967_295, WHOLE_LARGEST),
    // The same with a mode.
    sum(
        WHOLE_IN_MODE_0_TEXT,
        99,
        "length 99\ntask sum\n0 6\n1 7\n2 7\n",
    ),
    sum(
        WHOLE_IN_MODE_1_TEXT,
        100,
        "length 100\ntask sum\n0 7\n1 9\n2 10\n",
    ),
    sum(WHOLE_IN_MODE_1_TEXT, 4_294_967_295, WHOLE_LARGEST),
    // Nobody else adds anything.
    sum(ONE_TEXT, 0, "length 0\ntask sum\n0 0\n"),
    sum(
        ONE_TEXT,
        4_294_967_295,
        "length 4294967295\ntask sum\n0 0\n",
    ),
    // 0, 255 × 2 = 510, 1 × 2 = 2.
    sum(DAY_TEXT, 0, "length 0\ntask sum\n0 512\n1 2\n2 510\n"),
    sum(
        DAY_TEXT,
        86_399_999,
        "length 86399999\ntask sum\n0 512\n1 2\n2 510\n",
    ),
    // 0, 255 × 3 = 765, 1 × 3 = 3.
    sum(
        DAY_TEXT,
        86_400_000,
        "length 86400000\ntask sum\n0 768\n1 3\n2 765\n",
    ),
    sum(
        DAY_TEXT,
        86_400_001,
        "length 86400001\ntask sum\n0 768\n1 3\n2 765\n",
    ),
    // 0, 255 × (48 + 2) = 12,750, 50.
    sum(
        DAY_TEXT,
        4_233_599_999,
        "length 4233599999\ntask sum\n0 12800\n1 50\n2 12750\n",
    ),
    // 0, 255 × (49 + 2) = 13,005, 51.
    sum(
        DAY_TEXT,
        4_294_967_295,
        "length 4294967295\ntask sum\n0 13056\n1 51\n2 13005\n",
    ),
    // 0 × anything.
    sum(
        NONE_TEXT,
        4_294_967_295,
        "length 4294967295\ntask sum\n0 0\n1 0\n",
    ),
    // 1 × (2,147,483,647 + 2) each: the sums of two others, 4,294,967,298, pass 32 bits.
    sum(HALF_TEXT, 4_294_967_295, HALF_LARGEST),
    // 255 × 4,294,967,297 each.
    sum(MOST_TEXT, 4_294_967_295, MOST_LARGEST),
];

const WHOLE_LARGEST: &str = "\
length 4294967295
task sum
0 139586440
1 139586441
2 171798695
";

const ONE_TEXT: &str = "\
setup 1
task 65535 1 255
end
";

const DAY_TEXT: &str = "\
setup 16
task 1 86400000 0
task 65535 86400000 255
task 1 86400000 1
end
";

const NONE_TEXT: &str = "\
setup 1
task 1 1 0
task 1 1 0
end
";

const HALF_TEXT: &str = "\
setup 2
task 3 2 1
task 2 2 1
task 1 2 1
end
";

const HALF_LARGEST: &str = "\
length 4294967295
task sum
0 4294967298
1 4294967298
2 4294967298
";

const MOST_TEXT: &str = "\
setup 2
task 1 1 255
task 1 1 255
task 1 1 255
end
";

const MOST_LARGEST: &str = "\
length 4294967295
task sum
0 2190433321470
1 2190433321470
2 2190433321470
";

/// The most tasks with the most transactions and the shortest period, and each one's sum at the
/// largest length: 63 × 255 × 4,294,967,297.
pub const MOST_TASKS_LINE: &str = "task 1 1 255\n";
pub const MOST_TASKS_SUM: u64 = 68_998_649_626_305;

/// Words that are a length all the same, and the length.
pub const GOOD_LENGTHS: [(&str, u32); 4] = [
    ("00", 0),
    ("0004", 4),
    ("00000000000000000000000000000000000000100", 100),
    ("04294967295", 4_294_967_295),
];

/// Words that are no length. 18446744073709551620 is 2^64 + 4.
pub const BAD_LENGTHS: [&str; 17] = [
    "",
    " ",
    "+4",
    "-4",
    " 4",
    "4 ",
    "4x",
    "x",
    "0x4",
    "4.0",
    "1e2",
    "4,000",
    "-",
    "٤",
    "4294967296",
    "18446744073709551620",
    "99999999999999999999999999999999999999999",
];
