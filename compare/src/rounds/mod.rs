//! The comparison, round by round.

pub mod addresses;
pub mod damaged_files;
pub mod digits;
pub mod directions;
pub mod field_faults;
pub mod header_fields;
pub mod largest;
pub mod latest;
pub mod latest_cases;
pub mod list_faults;
pub mod long_traces;
pub mod lowest_terms;
pub mod mirrors;
pub mod panel_cases;
pub mod panel_courses;
pub mod panel_faults;
pub mod preview_cases;
pub mod preview_faults;
pub mod previews;
pub mod reading_cases;
pub mod readings;
pub mod samples;
pub mod shifts;
pub mod short_slices;
pub mod small_traces;
pub mod steps;
