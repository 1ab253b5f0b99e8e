//! How states, commands and events are printed: in the words of `tctool`, which has a line for each event.

use crate::{Command, Control, FarmMode, FopState, Next};
use core::fmt::{Display, Formatter, Result};

impl Display for FarmMode {
    fn fmt(&self, out: &mut Formatter<'_>) -> Result {
        out.pad(match self {
            Self::Open => "Open",
            Self::Wait => "Wait",
            Self::Lockout => "Lockout",
        })
    }
}

impl Display for FopState {
    fn fmt(&self, out: &mut Formatter<'_>) -> Result {
        out.pad(match self {
            Self::S1 => "S1",
            Self::S2 => "S2",
            Self::S3 => "S3",
            Self::S4 => "S4",
            Self::S5 => "S5",
            Self::S6 => "S6",
        })
    }
}

impl Display for Command {
    fn fmt(&self, out: &mut Formatter<'_>) -> Result {
        match self {
            Self::Unlock => out.pad("unlock"),
            Self::SetVr(vr) => write!(out, "set {vr}"),
        }
    }
}

impl Display for Control {
    fn fmt(&self, out: &mut Formatter<'_>) -> Result {
        match self {
            Self::Idle => out.pad("idle"),
            Self::Due(command) => write!(out, "{command} due"),
            Self::Sent(command) => write!(out, "{command} sent"),
        }
    }
}

impl Display for Next {
    fn fmt(&self, out: &mut Formatter<'_>) -> Result {
        match self {
            Self::Unlock => out.pad("unlock"),
            Self::SetVr(vr) => write!(out, "set {vr}"),
            Self::First(n) => write!(out, "first {n}"),
            Self::Again(n) => write!(out, "again {n}"),
        }
    }
}

#[cfg(feature = "nodes")]
mod nodes {
    use super::{Display, Formatter, Result};
    use crate::{Begun, Heard, HeardClcw, HeardReport, Received};

    impl Display for Received {
        fn fmt(&self, out: &mut Formatter<'_>) -> Result {
            match self {
                Self::Invalid(fault) => write!(out, "invalid {} {}", fault.number(), fault.name()),
                Self::Foreign => out.pad("foreign"),
                Self::Sequence { n, verdict, ready, dropped } => {
                    write!(out, "AD {n} {verdict}")?;
                    match ready {
                        0 => Ok(()),
                        1 => out.write_str(" ready"),
                        many => write!(out, " ready {many}"),
                    }?;
                    dropped.map_or(Ok(()), |it| write!(out, " dropped {}", it.name()))
                }
                Self::Bypass { kept } => out.pad(if *kept { "BD kept" } else { "BD dropped" }),
                Self::Control(command) => write!(out, "BC {command}"),
            }
        }
    }

    impl Display for Heard {
        fn fmt(&self, out: &mut Formatter<'_>) -> Result {
            match self {
                Self::Invalid(fault) => write!(out, "invalid {} {}", fault.number(), fault.name()),
                Self::Foreign => out.pad("foreign"),
                Self::Frame { gap, packets, alert, .. } => {
                    match gap {
                        Some(gap) => write!(out, "gap={gap}"),
                        None => out.write_str("gap=-"),
                    }?;
                    write!(out, " packets={packets}")?;
                    alert.map_or(Ok(()), |it| write!(out, " alert {}", it.name()))
                }
            }
        }
    }

    impl Display for HeardReport {
        fn fmt(&self, out: &mut Formatter<'_>) -> Result {
            match self {
                Self::Used => out.pad("ok"),
                Self::Refused(fault) => write!(out, "invalid {} {}", fault.number(), fault.name()),
                Self::OtherChannel => out.pad("foreign"),
            }
        }
    }

    impl Display for HeardClcw {
        fn fmt(&self, out: &mut Formatter<'_>) -> Result {
            match self.alert {
                Some(alert) => write!(out, "alert {}", alert.name()),
                None => Display::fmt(&self.report, out),
            }
        }
    }

    impl Display for Begun {
        fn fmt(&self, out: &mut Formatter<'_>) -> Result {
            match self {
                Self::WithoutCheck => out.pad("none"),
                Self::WithCheck => out.pad("check"),
                Self::Unlock => out.pad("unlock"),
                Self::SetVr(vr) => write!(out, "set {vr}"),
            }
        }
    }
}
