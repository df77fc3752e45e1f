//! What `--help` prints, for the command and for each part: the files of `help`, which the script `tainhosa` prints without this program.

macro_rules! usage {
    ($name:ident, $line:literal) => {
        pub const $name: &str = concat!("usage: ", $line, "\n       (--help tells more)\n");
    };
}

usage!(USAGE, "tainhosa digest|make|list|check|compare|explain|simulate|mend ...");
usage!(DIGEST_USAGE, "tainhosa digest [--json] SHEET FIRMWARE");
usage!(MAKE_USAGE, "tainhosa make [--sealed] [--force] [--json] SHEET FIRMWARE IMAGE");
usage!(LIST_USAGE, "tainhosa list [--tags] [--json] IMAGE");
usage!(CHECK_USAGE, "tainhosa check [--sealed] [--sectors N --size S] [--json] IMAGE");
usage!(COMPARE_USAGE, "tainhosa compare [--json] IMAGE IMAGE");
usage!(EXPLAIN_USAGE, "tainhosa explain [--json] NUMBER [PLACE [INNER-NUMBER INNER-PLACE]]");
usage!(
    SIMULATE_USAGE,
    "tainhosa simulate --boot IMAGE --update IMAGE --sectors N --size S [--cut K]... [--torn] [--confirm|--fall-back|--back] \
     [--counts] [--json]"
);
usage!(MEND_USAGE, "tainhosa mend --sectors N --size S [--dry-run] [--json] BOOT UPDATE SWAP");

pub const ALL: &str = include_str!("../help/tainhosa.txt");
pub const DIGEST: &str = include_str!("../help/digest.txt");
pub const MAKE: &str = include_str!("../help/make.txt");
pub const LIST: &str = include_str!("../help/list.txt");
pub const CHECK: &str = include_str!("../help/check.txt");
pub const COMPARE: &str = include_str!("../help/compare.txt");
pub const EXPLAIN: &str = include_str!("../help/explain.txt");
pub const SIMULATE: &str = include_str!("../help/simulate.txt");
pub const MEND: &str = include_str!("../help/mend.txt");
