//! What is asked: lists to write, files to read, jobs, questions to single functions, and
//! document 01's samples.

pub mod bit_pairs;
pub mod boundary_lists;
pub mod distance_lists;
pub mod faults;
pub mod faulty_lists;
pub mod files;
pub mod hard_files;
pub mod hard_lists;
pub mod headers;
pub mod hostile_files;
pub mod job_lists;
pub mod jobs;
pub mod jump_rows;
pub mod leaf_questions;
pub mod lists;
pub mod long_files;
pub mod non_ascii;
pub mod random_jobs;
pub mod records;
pub mod samples;
pub mod thumbnail_designs;
pub mod vp3_damage;
pub mod vp3_files;
pub mod vp3_limits;
pub mod vp3_lists;
pub mod vp3_marks;
pub mod vp3_parts;
pub mod vp3_samples;
