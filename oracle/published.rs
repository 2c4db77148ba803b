//! The published Rust, as the slicer cut it, with the names it needs from elsewhere.
//!
//! Its functions and fields are private to this module, so the sections that call them are its
//! children: a child sees what is private to its parent, and nothing has to be made public.

use crate::stand_ins::StandIns;
use crate::support::{anyhow, Mutex};
use std::collections::HashMap;
use std::sync::{Arc, OnceLock};

include!(env!("ORACLE_PUBLISHED_ITEMS"));

// The paths are written out, so that the benchmark can have this module too, from its own folder.
#[path = "published/beyond.rs"]
pub mod beyond;
#[path = "published/conditions.rs"]
pub mod conditions;
#[path = "published/days.rs"]
pub mod days;
#[path = "published/fins.rs"]
pub mod fins;
#[path = "published/interface.rs"]
pub mod interface;
#[path = "published/irradiance.rs"]
pub mod irradiance;
#[path = "published/jobs.rs"]
pub mod jobs;
#[path = "published/sanity.rs"]
pub mod sanity;
#[path = "published/seasons.rs"]
pub mod seasons;
#[path = "published/shading.rs"]
pub mod shading;
#[path = "published/strips.rs"]
pub mod strips;
#[path = "published/sun.rs"]
pub mod sun;
#[path = "published/totals.rs"]
pub mod totals;
#[path = "published/walk.rs"]
pub mod walk;
#[path = "published/wrong.rs"]
pub mod wrong;
