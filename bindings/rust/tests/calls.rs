//! The calls from Rust: answers, odd texts, memory, and four threads.
use cedar_validator::{check_data, typed_conditions, validate};

const CALL: &str = r#"{"schema":"entity U{a?:Long};action v appliesTo{principal:U,resource:U};","policies":{"staticPolicies":{"x":"permit(principal,action,resource) when {principal.a == 1};"}}}"#;
const CALLS: usize = 10_000;

fn resident() -> usize {
    let text = std::fs::read_to_string("/proc/self/statm").unwrap();
    text.split(' ').nth(1).unwrap().parse::<usize>().unwrap() * 4096
}

#[test]
fn answers() {
    let answer = validate(CALL).unwrap();
    assert!(answer.contains(r#""policyId":"x""#) && answer.contains(r#""code":"unguarded-attribute""#));
    let data = r#"{"schema":"entity U;","entities":[{"uid":{"type":"U","id":"x"},"attrs":{},"parents":[]}]}"#;
    assert!(check_data(data).unwrap().contains(r#""conforms":true,"count":1"#));
    let condition = r#"{"schema":"entity U;action v appliesTo{principal:U,resource:U};","policy":"permit(principal,action,resource) when {principal == resource};"}"#;
    assert!(typed_conditions(condition).unwrap().contains(r#"{"==":{"left":{"Var":"principal"},"right":{"Var":"resource"}}}"#));
}

#[test]
fn odd_texts() {
    for text in [String::new(), "[".repeat((1 << 26) + 1), "\0".to_string()] {
        assert!(validate(&text).unwrap().starts_with(r#"{"type":"failure""#));
    }
}

#[test]
fn memory_and_threads() {
    let wanted = validate(CALL).unwrap();
    let run = |count| (0..count).for_each(|_| assert_eq!(validate(CALL).unwrap(), wanted));
    run(CALLS / 10);
    let before = resident();
    run(CALLS);
    // (the other tests run beside it)
    assert!(resident() < before + (1 << 28));
    std::thread::scope(|scope| {
        for _ in 0..4 {
            scope.spawn(|| run(CALLS / 4));
        }
    });
}
