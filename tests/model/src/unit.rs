//! The state of the logical unit.

use crate::reply::Attention;

pub const HOSTS: usize = 4;

#[derive(Debug, Clone, Copy, PartialEq, Eq)]
pub enum Condition {
    Active,
    Idle,
    Standby,
    Sleep,
    Stopped,
}

impl Condition {
    /// Whether commands on the medium are taken.
    pub fn is_ready(self) -> bool {
        matches!(
            self,
            Condition::Active | Condition::Idle | Condition::Standby
        )
    }
}

#[derive(Debug, Clone, Copy, PartialEq, Eq)]
pub struct Settings {
    pub write_cache_disable: bool,
    pub power_performance: u8,
    pub write_disable: bool,
}

impl Settings {
    pub const DEFAULTS: Settings = Settings {
        write_cache_disable: false,
        power_performance: 0x80,
        write_disable: false,
    };
}

#[derive(Debug, Clone, Copy, PartialEq, Eq)]
pub struct LogicalUnit {
    pub loaded: bool,
    pub condition: Condition,
    pub holder: Option<usize>,
    pub barred: [bool; HOSTS],
    pub attentions: [Option<Attention>; HOSTS],
    pub settings: Settings,
}

impl LogicalUnit {
    /// As MAKE leaves it.
    pub fn new() -> Self {
        LogicalUnit {
            loaded: true,
            condition: Condition::Active,
            holder: None,
            barred: [false; HOSTS],
            attentions: [Some(Attention::PowerOnOrReset); HOSTS],
            settings: Settings::DEFAULTS,
        }
    }

    /// RESET keeps the medium and the settings.
    pub fn reset(&mut self) {
        *self = LogicalUnit {
            loaded: self.loaded,
            settings: self.settings,
            ..LogicalUnit::new()
        };
    }

    /// Another host than this one holds the reservation.
    pub fn is_held_against(&self, host: usize) -> bool {
        self.holder.is_some_and(|holder| holder != host)
    }

    /// A pending attention yields only to a higher one.
    pub fn raise(&mut self, host: usize, attention: Attention) {
        let pending = &mut self.attentions[host];
        *pending = (*pending).max(Some(attention));
    }

    /// Loads the medium; all hosts hear of it if it was not loaded.
    pub fn load(&mut self) {
        if !self.loaded {
            self.loaded = true;
            for host in 0..HOSTS {
                self.raise(host, Attention::MediumChanged);
            }
        }
    }

    /// Sets the settings; the other hosts hear of it if one changed.
    pub fn change_settings(&mut self, by: usize, settings: Settings) {
        if self.settings != settings {
            self.settings = settings;
            for host in (0..HOSTS).filter(|&host| host != by) {
                self.raise(host, Attention::ParametersChanged);
            }
        }
    }
}

impl Default for LogicalUnit {
    fn default() -> Self {
        Self::new()
    }
}

#[cfg(test)]
mod tests {
    use super::*;

    #[test]
    fn a_pending_attention_yields_only_to_a_higher_one() {
        let mut unit = LogicalUnit::new();
        unit.raise(0, Attention::MediumChanged);
        assert_eq!(unit.attentions[0], Some(Attention::PowerOnOrReset));
        unit.attentions[0] = Some(Attention::ParametersChanged);
        unit.raise(0, Attention::MediumChanged);
        assert_eq!(unit.attentions[0], Some(Attention::MediumChanged));
        unit.attentions[0] = None;
        unit.raise(0, Attention::ParametersChanged);
        assert_eq!(unit.attentions[0], Some(Attention::ParametersChanged));
    }
}
