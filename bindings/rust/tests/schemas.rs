//! Schemas that are read once: answers, refusals, an answer that does not fit at once, and threads.
use cedar_validator::{check_data, typed_conditions, validate, OpenError, Schema};

const SCHEMA: &str = "\"schema\":\"entity U{a?:Long};action v appliesTo{principal:U,resource:U};\"";
const POLICIES: &str = r#""policies":{"staticPolicies":{"x":"permit(principal,action,resource) when {principal.a == 1};"}}"#;

fn opened() -> Schema {
    Schema::open(&format!("{{{SCHEMA}}}")).unwrap()
}

#[test]
fn answers() {
    let mut schema = opened();
    for _ in 0..3 {
        assert_eq!(schema.validate(&format!("{{{POLICIES}}}")), validate(&format!("{{{SCHEMA},{POLICIES}}}")));
    }
    let data = r#""entities":[{"uid":{"type":"U","id":"x"},"attrs":{},"parents":[]}]"#;
    assert_eq!(schema.check_data(&format!("{{{data}}}")), check_data(&format!("{{{SCHEMA},{data}}}")));
    let policy = r#""policy":"permit(principal,action,resource) when {principal == resource};""#;
    assert_eq!(schema.typed_conditions(&format!("{{{policy}}}")), typed_conditions(&format!("{{{SCHEMA},{policy}}}")));
}

#[test]
fn a_schema_that_cannot_be_read() {
    for text in ["", r#"{"schema":"entity"}"#, "{}"] {
        assert!(matches!(Schema::open(text), Err(OpenError::Schema(failure)) if failure.starts_with(r#"{"type":"failure""#)));
    }
}

#[test]
fn an_answer_that_does_not_fit_at_once() {
    let policies = r#""policies":"POLICIES""#.replace("POLICIES", &"permit(principal,action,resource) when {principal.a == 1};".repeat(200));
    let wanted = validate(&format!("{{{SCHEMA},{policies}}}")).unwrap();
    let call = format!("{{{policies}}}");
    assert!(wanted.len() > 4 * call.len() + 4096);
    assert_eq!(opened().validate(&call).unwrap(), wanted);
}

#[test]
fn threads() {
    let wanted = validate(&format!("{{{SCHEMA},{POLICIES}}}")).unwrap();
    std::thread::scope(|scope| {
        for _ in 0..4 {
            scope.spawn(|| {
                let mut schema = opened();
                (0..1000).for_each(|_| assert_eq!(schema.validate(&format!("{{{POLICIES}}}")).unwrap(), wanted));
            });
        }
    });
}
