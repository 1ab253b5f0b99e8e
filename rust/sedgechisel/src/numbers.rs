//! Enums whose numbers are those of sedgechisel.h. `rust/check` compares their numbers and names with it, and
//! `tools/bindings` writes their texts.

/// An enum with the numbers of the header.
macro_rules! numbers {
    ($(#[$notes:meta])* $name:ident { $($(#[$note:meta])* $case:ident = $number:literal,)* }) => {
        $(#[$notes])*
        #[derive(Clone, Copy, Debug, PartialEq, Eq, Hash)]
        #[repr(u8)]
        pub enum $name { $($(#[$note])* $case = $number,)* }

        impl $name {
            /// The number in sedgechisel.h.
            #[must_use]
            pub const fn number(self) -> u8 {
                self as u8
            }

            /// The variant with this number, if there is one.
            #[must_use]
            pub const fn from_number(number: u8) -> Option<Self> {
                match number {
                    $($number => Some(Self::$case),)*
                    _ => None,
                }
            }

            /// The variant with the number that the library returned.
            #[allow(dead_code)]
            pub(crate) const fn of(number: u8) -> Self {
                match Self::from_number(number) {
                    Some(it) => it,
                    None => $crate::numbers::never(),
                }
            }
        }
    };
}

/// An enum of reasons, which are errors: each has a number, a name, and a text that states what it means. The enum may
/// gain variants later.
macro_rules! reasons {
    ($(#[$notes:meta])* $name:ident { $($case:ident = $number:literal, $text:literal;)* }) => {
        numbers! { $(#[$notes])* #[non_exhaustive] $name { $(#[doc = $text] $case = $number,)* } }

        impl $name {
            /// The name, as `tctool` writes it.
            #[must_use]
            pub const fn name(self) -> &'static str {
                match self {
                    $(Self::$case => stringify!($case),)*
                }
            }

            /// What it means.
            #[must_use]
            pub const fn meaning(self) -> &'static str {
                match self {
                    $(Self::$case => $text,)*
                }
            }
        }

        impl core::fmt::Display for $name {
            fn fmt(&self, out: &mut core::fmt::Formatter<'_>) -> core::fmt::Result {
                write!(out, "{} {}: {}", self.number(), self.name(), self.meaning())
            }
        }

        impl core::error::Error for $name {}
    };
}

/// Enums of faults, for which 0 means no fault.
macro_rules! faults {
    ($(#[$notes:meta])* $name:ident { $($rest:tt)* }) => {
        reasons! { $(#[$notes])* $name { $($rest)* } }

        impl $name {
            /// The fault that the library returned, if it is one.
            pub(crate) const fn judge(number: u8) -> Result<(), Self> {
                match number {
                    $crate::ffi::SEDGE_OK => Ok(()),
                    _ => Err(Self::of(number)),
                }
            }
        }
    };
}

/// The library has returned a number that it is proved not to return here.
#[cold]
pub(crate) const fn never() -> ! {
    panic!("sedgechisel: the library linked is not that of this crate")
}

/// A call that is refused only if its struct is damaged, which no struct of this crate ever is.
pub(crate) fn done(answer: u8) {
    if answer != crate::ffi::SEDGE_OK {
        never()
    }
}

#[cfg(test)]
mod tests {
    use crate::*;
    use std::string::{String, ToString};
    use std::vec::Vec;

    /// The texts of each alert are those of the library.
    #[test]
    fn what_alerts_say_is_what_the_library_says() {
        for it in 0..=u8::MAX {
            let (alert, said) = (Alert::from_number(it), ffi::sedge_alert_advice(it));
            assert_eq!(alert.map_or("?", Alert::advice), said.as_str());
            let is_broken = alert.is_some_and(Alert::shows_a_broken_condition);
            assert_eq!(is_broken, ffi::sedge_alert_shows_broken_condition(it));
        }
    }

    /// Each number below 253 has the same name here as in the library. The library has two more names, for faults that
    /// no call for C returns. The numbers from 253 on are common to all kinds of calls, and have no name there.
    #[test]
    fn names_are_those_of_the_library() {
        macro_rules! compare {
            ($($name:ident $word:ident,)*) => {
                $(for it in 0..253 {
                    let word = ffi::$word(it);
                    match $name::from_number(it) {
                        Some(named) => assert_eq!(named.name(), word.as_str()),
                        None => assert!(["?", "Memory", "State"].contains(&word.as_str())),
                    }
                })*
            };
        }
        compare! {
            ClcwFault sedge_clcw_fault_name,
            CopFault sedge_cop_fault_name,
            Verdict sedge_verdict_name,
            Alert sedge_alert_name,
            TcFault sedge_tc_fault_name,
            PacketFault sedge_packet_fault_name,
            TmFault sedge_tm_fault_name,
            MapFault sedge_map_fault_name,
            Dropped sedge_dropped_name,
            LogFault sedge_log_fault_name,
        }
    }

    /// The texts of a call in sedgechisel_faults.h. Each begins with its number.
    fn texts(call: &str) -> Vec<String> {
        let header = include_str!("../c/sedgechisel_faults.h");
        let (_, after) = header.split_once(&std::format!("*sedge_{call}_text(")).unwrap();
        let (body, _) = after.split_once("\n}").unwrap();
        let cases = body.split("return ").skip(1).map(|it| it.split('"').skip(1).step_by(2).collect());
        cases.filter(|it: &String| it.starts_with(|it: char| it.is_ascii_digit())).collect()
    }

    /// Each fault has the text that a program in C gets for its number, and there are no others.
    #[test]
    fn texts_are_those_of_the_header() {
        macro_rules! compare {
            ($($name:ident $call:literal,)*) => {
                $(let wanted = texts($call);
                let ours = (0..252).filter_map($name::from_number).map(|it| it.to_string());
                assert!(wanted.iter().filter(|it| !it.starts_with("25")).eq(&ours.collect::<Vec<_>>()));)*
            };
        }
        compare! {
            ClcwFault "clcw_fault",
            CopFault "cop_fault",
            TcFault "tc_fault",
            PacketFault "packet_fault",
            TmFault "tm_fault",
            MapFault "map_fault",
            LogFault "log_fault",
        }
        let status = texts("status");
        assert!(
            status.contains(&CheckFault::WrongCount.to_string())
                && status.contains(&MapFault::Damaged.to_string())
        );
        #[cfg(feature = "nodes")]
        {
            compare! { LinkFault "link_fault", SimFault "sim_fault", LedgerFault "ledger_fault", }
            let ours = (0..=u8::MAX)
                .filter_map(Parameter::from_number)
                .map(|it| OpenFault::OutOfRange(it).to_string());
            assert!(texts("parameter").iter().eq(&ours.collect::<Vec<_>>()));
        }
    }
}
