//! Runs as text, to be read by people.

use power_policy_interface::capability::PowerCapabilityFlags;

use crate::{
    driver::{Config, Order, Records},
    record,
    run::Run,
};

fn hex(bytes: &[u8]) -> String {
    bytes.iter().map(|byte| format!("{byte:02x}")).collect()
}

fn records_text(records: &Records) -> String {
    let ports = records
        .ports
        .iter()
        .map(|state| hex(&record::psu_to_bytes(state)));
    let chargers = records
        .chargers
        .iter()
        .map(|state| hex(&record::charger_to_bytes(state)));
    ports.chain(chargers).collect::<Vec<_>>().join(" ")
}

fn config_text(config: &Config) -> String {
    format!(
        "threshold {} unlimited {} limited {} minimum {:?}",
        config.limited_power_threshold_mw,
        hex(&record::power_to_bytes(&config.provider_unlimited)),
        hex(&record::power_to_bytes(&config.provider_limited)),
        config.min_consumer_threshold_mw
    )
}

/// The run, a line for each call, order, close and notice.
pub fn text(run: &Run) -> String {
    let mut lines = vec![format!(
        "start ports {} chargers {} {}",
        run.ports,
        run.chargers,
        config_text(&run.config)
    )];
    for event in &run.events {
        lines.push(format!("open {:?}", event.event));
        lines.push(format!("  records {}", records_text(&event.records)));
        for exchange in &event.exchanges {
            let Order {
                kind,
                device,
                capability,
            } = exchange.order;
            let capability = match capability {
                None => String::from("-"),
                Some(PowerCapabilityFlags::Consumer(capability)) => {
                    hex(&record::consumer_to_bytes(&capability))
                }
                Some(PowerCapabilityFlags::Provider(capability)) => {
                    hex(&record::provider_to_bytes(&capability))
                }
            };
            lines.push(format!("  order {kind:?} {device} {capability}"));
            lines.push(format!("  answer {}", exchange.answer));
            lines.push(format!("  records {}", records_text(&exchange.records)));
        }
        let [byte, expected, actual] = record::result_to_bytes(&event.answer);
        lines.push(format!(
            "  closed {byte} expected {expected} actual {actual} orders {}",
            event.orders
        ));
        for notice in &event.notices {
            lines.push(format!("  notice {notice:?}"));
        }
        lines.push(format!("  held {:?}", event.held));
    }
    lines.join("\n") + "\n"
}
