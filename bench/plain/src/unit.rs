//! The state of the logical unit, and why a command is refused.

pub const HOSTS: usize = 4;

/// The highest last: a pending one yields only to a higher one.
#[derive(Debug, Clone, Copy, PartialEq, Eq, PartialOrd, Ord)]
pub enum Attention {
    ParametersChanged,
    MediumChanged,
    PowerOnOrReset,
}

/// By the numbers of the answers.
#[derive(Debug, Clone, Copy, PartialEq, Eq)]
pub enum Failure {
    NoSuchHost,
    PowerOff,
    InvalidOpcode,
    ShortCdb,
    ControlSet,
    UnitAttention(Attention),
    ReservationConflict,
    InvalidField,
    MediumNotPresent,
    NotReady,
    AddressOutOfRange,
    WriteProtected,
    RemovalPrevented,
    ListLength,
    DataPhase,
    InvalidParameter,
}

#[derive(Debug, Clone, Copy, PartialEq, Eq)]
pub enum Condition {
    Active,
    Idle,
    Standby,
    Sleep,
    Stopped,
}

impl Condition {
    pub fn is_ready(self) -> bool {
        matches!(
            self,
            Condition::Active | Condition::Idle | Condition::Standby
        )
    }
}

#[derive(Debug, Clone, Copy, PartialEq, Eq)]
pub struct Settings {
    pub wcd: bool,
    pub performance: u8,
    pub writed: bool,
}

impl Settings {
    pub const DEFAULTS: Settings = Settings {
        wcd: false,
        performance: 0x80,
        writed: false,
    };
}

pub struct LogicalUnit {
    pub loaded: bool,
    pub condition: Condition,
    pub holder: Option<usize>,
    pub bars: [bool; HOSTS],
    pub attentions: [Option<Attention>; HOSTS],
    pub settings: Settings,
}

impl LogicalUnit {
    pub fn new() -> Self {
        LogicalUnit {
            loaded: true,
            condition: Condition::Active,
            holder: None,
            bars: [false; HOSTS],
            attentions: [Some(Attention::PowerOnOrReset); HOSTS],
            settings: Settings::DEFAULTS,
        }
    }

    pub fn reset(&mut self) {
        *self = LogicalUnit {
            loaded: self.loaded,
            settings: self.settings,
            ..LogicalUnit::new()
        };
    }

    pub fn is_held_by_other(&self, host: usize) -> bool {
        self.holder.is_some_and(|holder| holder != host)
    }

    fn raise(&mut self, host: usize, attention: Attention) {
        let pending = &mut self.attentions[host];
        *pending = (*pending).max(Some(attention));
    }

    pub fn load(&mut self) {
        if !self.loaded {
            self.loaded = true;
            (0..HOSTS).for_each(|host| self.raise(host, Attention::MediumChanged));
        }
    }

    pub fn change_settings(&mut self, by: usize, settings: Settings) {
        if self.settings != settings {
            self.settings = settings;
            for host in (0..HOSTS).filter(|&host| host != by) {
                self.raise(host, Attention::ParametersChanged);
            }
        }
    }
}

impl Default for LogicalUnit {
    fn default() -> Self {
        Self::new()
    }
}
