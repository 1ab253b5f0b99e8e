//! What states, commands and events print as: the words of `tctool`. `tools/session` compares those of events over
//! 10,000 lines; here are the rest, by hand.

use sedgechisel::*;

#[test]
fn words_of_states_and_commands() {
    let states = [FopState::S1, FopState::S2, FopState::S3, FopState::S4, FopState::S5, FopState::S6];
    assert_eq!(states.map(|it| it.to_string()).join(" "), "S1 S2 S3 S4 S5 S6");
    let modes = [FarmMode::Open, FarmMode::Wait, FarmMode::Lockout];
    assert_eq!(modes.map(|it| it.to_string()).join(" "), "Open Wait Lockout");
    assert_eq!(format!("{:>4}{:4}", FopState::S1, FarmMode::Open), "  S1Open");
    let next = [Next::Unlock, Next::SetVr(7), Next::First(8), Next::Again(9)];
    assert_eq!(next.map(|it| it.to_string()).join(", "), "unlock, set 7, first 8, again 9");
    let (unlock, set) = (Command::Unlock, Command::SetVr(255));
    let controls = [Control::Idle, Control::Due(unlock), Control::Sent(set)];
    assert_eq!(controls.map(|it| it.to_string()).join(", "), "idle, unlock due, set 255 sent");
}

#[cfg(feature = "nodes")]
#[test]
fn words_of_events() {
    let sequence = |ready, dropped| Received::Sequence { n: 3, verdict: Verdict::Accepted, ready, dropped };
    let received = [
        Received::Invalid(TcFault::Check),
        Received::Foreign,
        sequence(0, None),
        sequence(1, None),
        sequence(2, Some(Dropped::Interrupted)),
        Received::Bypass { kept: true },
        Received::Bypass { kept: false },
        Received::Control(Command::Unlock),
        Received::Control(Command::SetVr(7)),
    ];
    let words = "invalid 6 Check, foreign, AD 3 accepted, AD 3 accepted ready, AD 3 accepted ready 2 dropped Interrupted, \
        BD kept, BD dropped, BC unlock, BC set 7";
    assert_eq!(received.map(|it| it.to_string()).join(", "), words);
    let frame = |gap, alert| Heard::Frame { gap, packets: 2, report: HeardReport::Used, alert };
    let heard = [
        Heard::Invalid(TmFault::Length),
        Heard::Foreign,
        frame(None, None),
        frame(Some(255), Some(Alert::NnR)),
    ];
    let words = "invalid 1 Length, foreign, gap=- packets=2, gap=255 packets=2 alert NnR";
    assert_eq!(heard.map(|it| it.to_string()).join(", "), words);
    let reports = [HeardReport::Used, HeardReport::Refused(ClcwFault::Cop), HeardReport::OtherChannel];
    let words: Vec<_> = reports.iter().map(|it| it.to_string()).collect();
    assert_eq!(words, ["ok", "invalid 3 Cop", "foreign"]);
    assert_eq!(reports.map(|report| HeardClcw { report, alert: None }.to_string()).to_vec(), words);
    let alert = Some(Alert::Limit);
    assert_eq!(HeardClcw { report: HeardReport::Used, alert }.to_string(), "alert Limit");
    let begun = [Begun::WithoutCheck, Begun::WithCheck, Begun::Unlock, Begun::SetVr(7)];
    assert_eq!(begun.map(|it| it.to_string()).join(", "), "none, check, unlock, set 7");
}
