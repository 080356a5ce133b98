//! What Cedar's FFI takes and answers, and what this library adds, as types for serde.
use serde::{de::DeserializeOwned, Deserialize, Serialize};
use serde_json::Value;
use std::collections::BTreeMap;
use std::fmt;

/// Why a typed call has no answer.
#[derive(Debug)]
pub enum Error {
    /// The call was not answered.
    Call(crate::Error),
    /// A text is not JSON of these types.
    Json(serde_json::Error),
}

impl fmt::Display for Error {
    fn fmt(&self, f: &mut fmt::Formatter) -> fmt::Result {
        match self {
            Error::Call(why) => why.fmt(f),
            Error::Json(why) => why.fmt(f),
        }
    }
}

impl std::error::Error for Error {}

/// How strictly types must fit.
#[derive(Clone, Copy, PartialEq, Eq, Debug, Serialize)]
#[serde(rename_all = "lowercase")]
pub enum Mode {
    Strict,
    Permissive,
}

/// What is left out has its default.
#[derive(Clone, PartialEq, Debug, Default, Serialize)]
pub struct Settings {
    #[serde(skip_serializing_if = "Option::is_none")]
    pub mode: Option<Mode>,
    /// The maximum level.
    #[serde(skip_serializing_if = "Option::is_none")]
    pub level: Option<u32>,
    /// The maximum nesting depth of a condition.
    #[serde(skip_serializing_if = "Option::is_none")]
    pub depth: Option<u32>,
    /// Whether the answer has `also`, `environments` and `policies`.
    pub details: bool,
}

/// Policies by their ids, each a text or an object of JSON.
#[derive(Clone, PartialEq, Debug, Default, Serialize)]
#[serde(rename_all = "camelCase")]
pub struct PolicySet {
    pub static_policies: BTreeMap<String, Value>,
    pub templates: BTreeMap<String, Value>,
    pub template_links: Vec<TemplateLink>,
}

/// A link of a template: each slot with its entity, an object of JSON.
#[derive(Clone, PartialEq, Debug, Serialize)]
#[serde(rename_all = "camelCase")]
pub struct TemplateLink {
    pub template_id: String,
    pub new_id: String,
    pub values: BTreeMap<String, Value>,
}

/// A call that validates policies. The schema is a text or an object of JSON.
#[derive(Clone, PartialEq, Debug, Serialize)]
#[serde(rename_all = "camelCase")]
pub struct ValidationCall {
    pub schema: Value,
    pub policies: PolicySet,
    pub validation_settings: Settings,
}

/// Bytes of UTF-8.
#[derive(Clone, PartialEq, Eq, Debug, Deserialize)]
pub struct SourceLocation {
    pub label: Option<String>,
    pub start: usize,
    pub end: usize,
}

#[derive(Clone, PartialEq, Eq, Debug, Deserialize)]
#[serde(rename_all = "camelCase")]
pub struct DetailedError {
    pub message: String,
    pub help: Option<String>,
    pub code: Option<String>,
    pub url: Option<String>,
    pub severity: Option<String>,
    #[serde(default)]
    pub source_locations: Vec<SourceLocation>,
    #[serde(default)]
    pub related: Vec<DetailedError>,
}

/// What is found in a policy. The last two are empty without `details`.
#[derive(Clone, PartialEq, Eq, Debug, Deserialize)]
#[serde(rename_all = "camelCase")]
pub struct ValidationError {
    pub policy_id: String,
    pub error: DetailedError,
    #[serde(default)]
    pub also: Vec<String>,
    #[serde(default)]
    pub environments: Vec<String>,
}

/// The verdict on a policy, which an answer has with `details`.
#[derive(Clone, PartialEq, Eq, Debug, Deserialize)]
#[serde(rename_all = "camelCase")]
pub struct PolicyVerdict {
    pub policy_id: String,
    pub accepted: bool,
    /// `None` if no level is known, `Some(None)` if no level is enough.
    #[serde(default, deserialize_with = "present")]
    pub level: Option<Option<u64>>,
    pub more_findings: usize,
}

fn present<'de, D: serde::Deserializer<'de>>(of: D) -> Result<Option<Option<u64>>, D::Error> {
    Option::deserialize(of).map(Some)
}

#[derive(Clone, PartialEq, Eq, Debug, Deserialize)]
#[serde(tag = "type", rename_all = "camelCase")]
pub enum ValidationAnswer {
    /// The texts were read, and the policies checked.
    #[serde(rename_all = "camelCase")]
    Success {
        validation_errors: Vec<ValidationError>,
        validation_warnings: Vec<ValidationError>,
        other_warnings: Vec<DetailedError>,
        #[serde(default)]
        policies: Vec<PolicyVerdict>,
    },
    /// Nothing was checked.
    Failure { errors: Vec<DetailedError>, warnings: Vec<DetailedError> },
}

/// Validates policies.
pub fn validate(call: &ValidationCall) -> Result<ValidationAnswer, Error> {
    answered(crate::validate, call)
}

fn answered<A: DeserializeOwned>(function: fn(&str) -> Result<String, crate::Error>, call: &impl Serialize) -> Result<A, Error> {
    let text = serde_json::to_string(call).map_err(Error::Json)?;
    serde_json::from_str(&function(&text).map_err(Error::Call)?).map_err(Error::Json)
}
