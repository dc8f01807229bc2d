//! What a service is started with.

use crate::PowerCapability;

/// What the policy is set to. It has two values by name: [`Config::default`], and [`Config::rust_default`], which equals the
/// `Default` of the original.
///
/// A later version may have more fields, so that another crate starts from one of these values or from [`Config::new`]:
///
/// ```
/// use power_policy::{Config, Service};
///
/// let mut config = Config::default();
/// config.min_consumer_threshold_mw = Some(7500);
/// let service = Service::start(2, 1, &config)?;
/// assert_eq!(service.ports(), 2);
/// # Ok::<(), power_policy::Error>(())
/// ```
#[derive(Clone, Copy, Debug, PartialEq, Eq)]
#[non_exhaustive]
pub struct Config {
    /// Above this, provided power is limited.
    pub limited_power_threshold_mw: u32,
    /// What a port is granted at most while power is not limited.
    pub provider_unlimited: PowerCapability,
    /// What a port is granted while power is limited.
    pub provider_limited: PowerCapability,
    /// Consumers below this are not considered; with none, all are.
    pub min_consumer_threshold_mw: Option<u32>,
}

impl Config {
    /// A configuration of these figures.
    ///
    /// ```
    /// use power_policy::{Config, PowerCapability};
    ///
    /// let granted = |current_ma| PowerCapability { voltage_mv: 5000, current_ma };
    /// let config = Config::new(15000, granted(3000), granted(1500), None);
    /// assert_eq!(config, Config::rust_default());
    /// ```
    pub const fn new(
        limited_power_threshold_mw: u32,
        provider_unlimited: PowerCapability,
        provider_limited: PowerCapability,
        min_consumer_threshold_mw: Option<u32>,
    ) -> Self {
        Self {
            limited_power_threshold_mw,
            provider_unlimited,
            provider_limited,
            min_consumer_threshold_mw,
        }
    }

    /// The configuration that equals the `Default` of the original: 15 W, 5 V at 3 A and at 1.5 A, no minimum. Who relies on having
    /// no minimum takes this one.
    ///
    /// ```
    /// assert_eq!(power_policy::Config::rust_default().min_consumer_threshold_mw, None);
    /// ```
    pub const fn rust_default() -> Self {
        Self {
            limited_power_threshold_mw: 15000,
            provider_unlimited: PowerCapability {
                voltage_mv: 5000,
                current_ma: 3000,
            },
            provider_limited: PowerCapability {
                voltage_mv: 5000,
                current_ma: 1500,
            },
            min_consumer_threshold_mw: None,
        }
    }
}

impl Default for Config {
    /// The configuration out of the box.
    fn default() -> Self {
        Self::rust_default()
    }
}
