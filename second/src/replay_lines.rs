//! The tests of the lines of the script of `test_replay`.

use crate::halves::tag;
use crate::message::ANSWER;
use crate::replay::Replay;

/// `Hut 4`, bare and padded.
const NAME: &str = "4875742034";
const PADDED: &str = "48757420340000000000000000000000";

pub fn started() -> Replay {
    let mut replay = Replay::default();
    let starts = format!(
        "dealer {NAME} @32:1 @32:2 0\nparty camera {NAME} 0 @32:1 0\n\
         party office {NAME} 1 @32:2 0\nlock {NAME} 0\n"
    );
    assert_eq!(replay.answers(&starts), "0\n0\n0\n0\n");
    replay
}

/// A check under number 1, the squared Euclid line of 01, up to its join.
pub fn checked(replay: &mut Replay, rule: &str) -> String {
    let deal = format!("deal 1 @32:3 1 2 {rule} 1536 2048");
    assert!(replay.answer(&deal).starts_with("0 "));
    for (at, vector) in [
        ("camera", "03000000fcffffff"),
        ("office", "0200000005000000"),
    ] {
        assert_eq!(replay.answer(&format!("load {at} {at} 0 1536 9999")), "0");
        let mask = replay.answer(&format!("mask {at} {vector} 3"));
        assert!(mask.starts_with("0 "));
    }
    for (call, kind) in [("take", 0), ("finish", 1)] {
        for (at, from, sender) in [("camera", "office", 1), ("office", "camera", 0)] {
            let line = format!("{call} {at} {kind} {PADDED} {sender} 1 {from}");
            assert!(replay.answer(&line).starts_with("0 "));
        }
    }
    let answers = format!("{ANSWER} {PADDED} 0 1 camera {ANSWER} {PADDED} 1 1 office");
    let host = replay.answer(&format!("host {PADDED} 0 {answers}"));
    let join = replay.answer(&format!("join {answers}"));
    assert_eq!(host, format!("{} 1", &join[2..]));
    assert_eq!(replay.answer(&format!("join {answers}")), "7");
    assert_eq!(
        replay.answer(&format!("host {PADDED} 1 {answers}")),
        "107 1"
    );
    join
}

#[test]
fn a_check_is_answered() {
    for (rule, bit) in [("81", 0), ("82", 1), ("83", 1), ("82:82", 1), ("0:82", 1)] {
        assert_eq!(checked(&mut started(), rule), format!("0 {bit}"));
    }
    for rule in ["0:81", "83:2147483647", "81:81", "83:83"] {
        assert_eq!(checked(&mut started(), rule), "0 0");
    }
}

/// The rows 0 to 299 by the threshold 81, and 300 to 1,439 by 82.
const DAY: &str = "000000002c010000 2b0100009f050000 5100000052000000";

/// A deal by the clock is answered by its row and the tags of the deal by the threshold, and
/// its halves are kept. Refused it has a place.
#[test]
fn a_deal_by_the_clock_is_answered() {
    for (minute, row, threshold) in [(0, 1, 81), (299, 1, 81), (300, 2, 82), (1439, 2, 82)] {
        let (mut one, mut other) = (started(), started());
        let dealt = one.answer(&format!("clock 1 @32:3 1 2 {DAY} {minute} 1536 2048"));
        let plain = other.answer(&format!("deal 1 @32:3 1 2 {threshold} 1536 2048"));
        assert_eq!(dealt, format!("0 {row} {}", &plain[2..]));
        assert_eq!((one.dealer, one.dealt), (other.dealer, other.dealt));
    }
    let mut replay = started();
    for (line, answer) in [
        (format!("clock 0 - 9 0 {DAY} 1440 0 0"), "2 0"),
        (format!("clock 0 - 1 2 {DAY} 1440 0 0"), "4 0"),
        (format!("clock 0 @32:1 1 2 {DAY} 1440 0 0"), "5 0"),
        (format!("clock 0 @32:1 1 2 {DAY} 1440 1536 1536"), "7 0"),
        (format!("clock 1 @32:1 1 2 {DAY} 1440 1536 1536"), "8 0"),
        ("clock 0 - 9 0 - - - 0 0 0".to_string(), "14 0"),
        ("clock 0 - 9 0 - 00000000 - 0 0 0".to_string(), "14 0"),
        (
            "clock 0 - 9 0 ~2:0:0:0 ~2:0:1440:0 @8:1 0 0 0".to_string(),
            "14 1",
        ),
        (
            "clock 0 - 9 0 01000000 9f050000 @4:1 0 0 0".to_string(),
            "15 0",
        ),
        (
            "clock 0 - 9 0 ~2:0:0:0 ~2:0:1439:0 @8:1 0 0 0".to_string(),
            "16 0",
        ),
    ] {
        assert_eq!(replay.answer(&line), answer, "{line}");
    }
    assert!(replay.dealt.is_empty() && replay.dealer == started().dealer);
}

/// A trial is answered by name, code and L, or as the load would be, and keeps nothing.
#[test]
fn a_trial_is_answered() {
    let mut replay = started();
    for deal in [
        "deal 3 @32:3 1 2 5 1536 1536",
        "deal 4 @32:4 2 17 1:9 2048 2048",
    ] {
        assert!(replay.answer(deal).starts_with("0 "));
    }
    let before = replay.answer("show camera");
    let halves = replay.dealt[1]
        .clone()
        .map(|half| crate::field::format(&half));
    let bytes = format!("trial-bytes office {}", halves[1]);
    for (line, answer) in [
        ("trial camera camera 1 1536 9999", "1 2"),
        ("trial camera camera 0 2048 9999", "2 17"),
        ("trial-mixed camera 3 0 3", "2 17"),
        (&bytes, "1 2"),
        ("trial camera camera 0 2047 9999", "4"),
        ("trial camera camera 0 2048 100", "10"),
        ("trial camera office 0 2048 9999", "10"),
        ("trial-mixed camera 3 1 2", "10"),
        ("trial camera camera 0 1536 9999", "11"),
        ("trial-bytes camera -", "4"),
        ("trial-bytes camera @1536:9", "10"),
    ] {
        let expected = match answer.contains(' ') {
            true => format!("0 {PADDED} {answer}"),
            false => answer.to_string(),
        };
        assert_eq!(replay.answer(line), expected, "{line}");
    }
    assert_eq!(replay.answer("show camera"), before);
    assert_eq!(replay.answer("load camera camera 1 1536 9999"), "0");
    assert_eq!(replay.answer("trial camera camera 1 1536 100"), "7");
    assert_eq!(replay.answer("load camera camera 0 2048 9999"), "0");
    assert_eq!(replay.answer("trial-bytes camera -"), "3");
}

/// What is no line of a script after a check.
const BAD_LINES: [&str; 56] = [
    "deal",
    "drop door",
    "drop camera ",
    " drop camera",
    "drop  camera",
    "Drop camera",
    "deal 2 @32:3 1 2 5 1536 8705",
    "deal 18446744073709551616 @32:3 1 2 5 1536 1536",
    "deal 2 @32:3 1 2 4294967296 1536 1536",
    "deal +2 @32:3 1 2 5 1536 1536",
    "deal -2 @32:3 1 2 5 1536 1536",
    "deal 2 @+32:3 1 2 5 1536 1536",
    "deal 2 ~8:3:0:1 1 2 5 1536 1536",
    "load camera camera 4 1536 0",
    "load camera camera 1 1536 0",
    "load camera camera 0 2049 0",
    "load camera lock 0 1536 0",
    "mixed camera 3 0 0",
    "mixed camera 0 0 3",
    "bytes camera 0G",
    "trial camera camera 1 1536 0",
    "trial camera camera 0 2049 0",
    "trial camera lock 0 1536 0",
    "trial lock camera 0 1536 0",
    "trial camera camera 0 1536",
    "trial-mixed camera 3 0 0",
    "trial-mixed camera 0 0 3",
    "trial-mixed camera 0 0",
    "trial-bytes camera 0G",
    "trial-bytes camera",
    "mask camera 03000000fcffff 2",
    "mask camera - 521",
    "take camera 0 - 1 1 lock",
    "finish camera 0 - 1 4294967296",
    "put camera 0 0 0",
    "deal 2 @32:3 1 2 5: 1536 1536",
    "deal 2 @32:3 1 2 :5 1536 1536",
    "deal 2 @32:3 1 2 5:6:7 1536 1536",
    "deal 2 @32:3 1 2 5:4294967296 1536 1536",
    "width camera 0",
    "width camera 0 0 0",
    "width lock 0 0",
    "width camera 4294967296 0",
    "width camera 0 4294967296",
    "waiting camera 1 0",
    "waiting camera 1 0 1 0",
    "waiting lock 1 0 1",
    "waiting camera 18446744073709551616 0 1",
    "waiting camera 1 4294967296 1",
    "waiting camera 1 0 4294967296",
    "clock 2 @32:3 1 2 00000000 9f050000 05000000 0 1536",
    "clock 2 @32:3 1 2 00000000 9f050000 05000000 4294967296 1536 1536",
    "clock 2 @32:3 1 2 000000 9f050000 05000000 0 1536 1536",
    "clock 2 @32:3 1 2 00000000 9f050000 5 0 1536 1536",
    "clock 2 @32:3 1 2 00000000 9f050000 05000000 0 8705 1536",
    "show door",
];

/// What is no line of a script is answered so, and changes nothing.
#[test]
fn bad_lines() {
    let mut replay = started();
    checked(&mut replay, "82");
    let states = ["dealer", "camera", "office", "lock"].map(|part| format!("show {part}"));
    let before = states.clone().map(|line| replay.answer(&line));
    let lines = replay.lines;
    for (place, bad) in BAD_LINES.into_iter().enumerate() {
        let number = lines + 1 + place;
        assert_eq!(replay.answer(bad), format!("bad line {number}"), "{bad}");
    }
    assert_eq!(replay.answer(""), "");
    assert_eq!(replay.answer("# drop camera"), "");
    assert_eq!(states.map(|line| replay.answer(&line)), before);
}

#[test]
fn before_the_first_start_all_is_zero() {
    let mut replay = Replay::default();
    assert_eq!(replay.answer("show lock"), tag(&[0; 24]));
    assert_eq!(replay.answer("show dealer"), tag(&[0; 88]));
    let zeros = "00".repeat(16);
    let join = format!("join 2 {zeros} 0 5 camera 2 {zeros} 1 5 office");
    assert_eq!(replay.answer(&join), "0 0");
    assert_eq!(replay.answer("load camera camera 0 0 0"), "bad line 4");
}
