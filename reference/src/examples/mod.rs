//! Four systems to run, each as a tree file and an opinion sheet, one with a book of work windows.

pub mod road_trip;
pub mod container_seal;
pub mod fuel_supply;
pub mod cooling_pumps;

use crate::describe::{book_bytes, sheet_bytes, tree_bytes, Entry, Node};
use crate::work_windows::Window;

pub struct Example {
    pub number: u16,
    pub nodes: Vec<Node>,
    pub scores: Vec<u8>,
    pub entries: Vec<Entry>,
    /// Where there are any, the example has a book.
    pub windows: Vec<Window>,
}

impl Example {
    pub fn tree(&self) -> Vec<u8> {
        tree_bytes(self.number, &self.nodes)
    }

    pub fn sheet(&self) -> Vec<u8> {
        sheet_bytes(self.number, &self.scores, &self.entries)
    }

    pub fn book(&self) -> Vec<u8> {
        book_bytes(&self.windows)
    }
}

pub const NAMES: [&str; 4] = ["road_trip", "container_seal", "fuel_supply", "cooling_pumps"];

pub fn example(name: &str) -> Option<Example> {
    match name {
        "road_trip" => Some(road_trip::road_trip()),
        "container_seal" => Some(container_seal::container_seal()),
        "fuel_supply" => Some(fuel_supply::fuel_supply()),
        "cooling_pumps" => Some(cooling_pumps::cooling_pumps()),
        _ => None,
    }
}
