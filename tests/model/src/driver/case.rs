//! A run to compare: a pile and a script.

use std::fmt;

use recorder_model::pile::Pile;
use recorder_model::script::Call;
use recorder_model::session;

#[derive(Debug, Clone, PartialEq, Eq)]
pub struct Case {
    pub pile: Pile,
    pub calls: Vec<Call>,
}

impl Case {
    pub fn script(&self) -> String {
        self.calls.iter().map(|call| format!("{call}\n")).collect()
    }

    /// What the model prints for the script.
    pub fn played(&self) -> String {
        let mut output = Vec::new();
        session::play(&self.pile, &self.calls, &mut output).expect("a vector takes all");
        String::from_utf8(output).expect("the model prints text")
    }
}

/// In the form of `model cases`.
impl fmt::Display for Case {
    fn fmt(&self, f: &mut fmt::Formatter<'_>) -> fmt::Result {
        write!(f, "case {}\n{}", self.pile, self.script())
    }
}
