//! Typed calls, with the feature `serde`.
#![cfg(feature = "serde")]
use cedar_validator::types::{validate, Mode, PolicySet, Settings, ValidationAnswer, ValidationCall};

const SCHEMA: &str = "entity U{a?:Long};action v appliesTo{principal:U,resource:U};";

fn call(condition: &str) -> ValidationCall {
    let policy = format!("permit(principal,action,resource) when {{{condition}}};").into();
    let policies = PolicySet { static_policies: [("x".to_string(), policy)].into(), ..PolicySet::default() };
    let validation_settings = Settings { mode: Some(Mode::Permissive), level: Some(3), depth: None, details: true };
    ValidationCall { schema: SCHEMA.into(), policies, validation_settings }
}

#[test]
fn typed_answers() {
    let Ok(ValidationAnswer::Success { validation_errors, policies, .. }) = validate(&call("principal.a == 1")) else { panic!() };
    let [error] = validation_errors.as_slice() else { panic!() };
    assert_eq!((error.policy_id.as_str(), error.error.code.as_deref()), ("x", Some("unguarded-attribute")));
    assert_eq!((policies[0].accepted, policies[0].level), (false, None));
    let Ok(ValidationAnswer::Success { policies, .. }) = validate(&call("principal has a && principal.a == 1")) else { panic!() };
    assert_eq!((policies[0].accepted, policies[0].level), (true, Some(Some(1))));
    let Ok(ValidationAnswer::Failure { errors, .. }) = validate(&call("principal.")) else { panic!() };
    assert_eq!(errors[0].severity.as_deref(), Some("error"));
}
