//! The rules that an explanation may name: anchors of docs/RULES.md. Texts name them only through this type, and a test
//! looks each of them up on the page.

use std::fmt;

macro_rules! rules {
    ($($name:ident)*) => {
        /// A rule of docs/RULES.md.
        #[derive(Clone, Copy, Debug, PartialEq, Eq, PartialOrd, Ord)]
        pub enum Rule { $($name),* }

        impl Rule {
            /// Every rule that the tool names.
            pub const ALL: &[Rule] = &[$(Rule::$name),*];

            /// Its name on the page.
            pub fn name(self) -> &'static str {
                match self { $(Rule::$name => stringify!($name)),* }
            }
        }
    };
}

rules! {
    F1 F2 F3 F4 F5 F6 F7 F8 F9 F10 F11 F12 F13
    V1 V2 V3 V4 V6 V11
    T1 T2 T3 T4 T5 T6 T7 T8 T9
    R1 R2 R3 R4 R5 R6 R7 R8 R10 R11 R12 R13 R14 R15 R16
    W1 W2 W3 W4 W5 W6 W7 W9 W10
    L8 L9 B1 P3 P4
    G2 G3 G4 G6 G7 G8 G9 G11 G12
    Q1 Q2 Q3 Q4
    S1 S2 S3 S4 S5 S6 S7 S8 S9
    E1 E2
    M1 M2 M4
    K1 K2 K3 K4 K5 K6 K7
    O1 O2
}

impl fmt::Display for Rule {
    fn fmt(&self, f: &mut fmt::Formatter) -> fmt::Result {
        f.pad(self.name())
    }
}

/// Rules one behind the other: `T1, F3`.
pub fn list(rules: &[Rule]) -> String {
    rules.iter().map(|rule| rule.name()).collect::<Vec<_>>().join(", ")
}
