//! Types that derive `Deserialize`.

use serde::Deserialize;
use std::collections::BTreeMap;

#[derive(Debug, Deserialize, PartialEq)]
pub struct Item {
    pub name: String,
    #[serde(default)]
    pub price: Option<f64>,
    pub kind: Kind,
}

#[derive(Debug, Deserialize, PartialEq, Eq, PartialOrd, Ord)]
#[serde(rename_all = "lowercase")]
pub enum Kind {
    Tea,
    Mix(u8, u8),
    Named { name: String },
    Wrapped(Wrapper),
}

#[derive(Debug, Deserialize, PartialEq, Eq, PartialOrd, Ord)]
pub struct Wrapper(pub i32);

#[derive(Debug, Deserialize, PartialEq)]
pub struct Unit;

#[derive(Debug, Deserialize, PartialEq)]
#[serde(untagged)]
pub enum Either {
    Number(i64),
    Names(Vec<String>),
}

#[derive(Debug, Deserialize, PartialEq)]
#[serde(tag = "type")]
pub enum Tagged {
    Point { x: f32, y: f32 },
}

#[derive(Debug, Deserialize, PartialEq)]
pub struct Flat {
    pub id: u8,
    #[serde(flatten)]
    pub rest: BTreeMap<String, String>,
}
