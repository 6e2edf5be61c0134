//! What the help says of `renew` and `audit`.

use crate::args::Opt;
use crate::help::Help;

pub const NO_MARK: &str = "--no-mark";
pub const QUIET: &str = "-q";
pub const SHARD: &str = "--shard";

const SHARD_OPTION: Opt = Opt {
    name: SHARD,
    value: "K/N",
    does: "\
takes the K-th of N parts, K from 1: each sheet is of one part,
by a digest of its path from DIR on",
};

pub const RENEW: Help = Help {
    usage: "renew DIR.. [--shard K/N] [--no-mark] [-q]",
    does: "makes the tables of a collection that are missing or differ",
    text: "\
Searches folders with their subfolders. Beside each accepted sheet NAME.pcrl it
makes its table NAME.table where that is missing, of the earlier layout (without
the names of its sorts) or differs. Beside a refused sheet it writes a mark
NAME.refused, whose first line is `refused` and the number of the question, and
renames its earlier table to NAME.table.old, so that no bench steps through it;
when the sheet is mended, the mark is removed.

Names each file that it made, mended, set aside or removed, then the counts;
faults are on standard error. It may be killed at any time, and run again.
",
    options: &[
        Opt {
            name: NO_MARK,
            value: "",
            does: "writes no marks",
        },
        Opt {
            name: QUIET,
            value: "",
            does: "names no files, and prints the counts alone",
        },
        SHARD_OPTION,
    ],
    example: "wizbratel renew sheets more-sheets",
};

pub const AUDIT: Help = Help {
    usage: "audit DIR.. [--shard K/N] [--no-mark]",
    does: "looks whether a collection is as renew would leave it",
    text: "\
Writes nothing. Fails unless every accepted sheet has exactly its own table and
no mark, every refused one a mark with its number and no table, every table and
mark its sheet, and every DIR a sheet. Mentions refused sheets, temporary files
that are left over, and files whose names end in .PCRL.
",
    options: &[
        Opt {
            name: NO_MARK,
            value: "",
            does: "looks at no marks: a refused sheet is a fault",
        },
        SHARD_OPTION,
    ],
    example: "wizbratel audit sheets more-sheets",
};
