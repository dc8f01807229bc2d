//! Stand-in: empty. The original holds a mock charger that nothing here uses.
