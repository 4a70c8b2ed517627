//! Tests of the second checker and the second listener by themselves.

/// Sheet A and the cases (a) to (m) of document 01.
#[path = "second/sheet_a.rs"]
mod sheet_a;

/// The named clauses of every rule.
#[path = "second/clauses.rs"]
mod clauses;

/// Generated sheets.
#[path = "second/generated.rs"]
mod generated;

/// The sheets kept as files.
#[path = "second/stored.rs"]
mod stored;

/// The cases of the readings.
#[path = "second/readings.rs"]
mod readings;

/// Listener calls.
#[path = "second/listener.rs"]
mod listener;

/// Demand 3 on random lists of calls.
#[path = "second/demand_3.rs"]
mod demand_3;

/// What random accepted sheets hold.
#[path = "second/richness.rs"]
mod richness;

/// Scripts as text.
#[path = "second/script.rs"]
mod script;

/// The scripts kept as files.
#[path = "second/stored_scripts.rs"]
mod stored_scripts;

/// Figures that clashed.
#[path = "second/figures.rs"]
mod figures;

/// The sheets kept as files for the figures.
#[path = "second/stored_figures.rs"]
mod stored_figures;

/// Lists of language words.
#[path = "second/languages.rs"]
mod languages;

/// Gains of plain factors, and lines of them.
#[path = "second/factors.rs"]
mod factors;

/// The lines of factors kept as a file.
#[path = "second/stored_factors.rs"]
mod stored_factors;

/// Block times of live frames.
#[path = "second/frames.rs"]
mod frames;

/// The inputs of block times kept as files.
#[path = "second/stored_frames.rs"]
mod stored_frames;
