//! The repository's examples.

use resolve::{Answer, Lack, Verdict, judge, solve, solve_in, solve_within};

fn example(name: &str) -> Vec<u8> {
    std::fs::read(format!("{}/../../examples/{name}", env!("CARGO_MANIFEST_DIR"))).unwrap()
}

#[test]
fn installs() {
    let (catalogue, request, report) = (example("app.catalogue"), example("app.request"), example("app.report"));
    assert_eq!(solve(&catalogue, &request), Ok(Answer::Installed(report.clone())));
    assert_eq!(judge(&catalogue, &request, &report), Ok(Verdict::Yes));
    for room in 0..report.len() + 2 {
        assert_eq!(solve_in(room, &catalogue, &request).unwrap().text(), report);
    }
}

#[test]
fn refuses() {
    let (catalogue, request, report) = (example("app.catalogue"), example("conflict.request"), example("conflict.report"));
    assert_eq!(solve(&catalogue, &request), Ok(Answer::Refused(report.clone())));
    assert_eq!(judge(&catalogue, &request, &report), Ok(Verdict::Yes));
    assert_eq!(judge(&catalogue, b"needs app\n", &report), Ok(Verdict::No(2)));
}

#[test]
fn tells_faults_and_lacks() {
    assert_eq!(solve(b"version  a 1\n", b""), Ok(Answer::Faulty(b"fault at catalogue line 1\n".to_vec())));
    assert_eq!(judge(b"", b"needs\n", b""), Ok(Verdict::Faulty(b"fault at request line 1\n".to_vec())));
    assert_eq!(solve(&vec![b'#'; (1 << 24) + 1], b""), Err(Lack::TooLong));
    assert_eq!(solve(b"", b"").unwrap().text(), b"install\n");
}

#[test]
fn gives_up_below_the_budget_that_is_needed() {
    for (catalogue, request) in [("app", "app"), ("app", "conflict"), ("wishes", "wishes")] {
        let (catalogue, request) = (example(&format!("{catalogue}.catalogue")), example(&format!("{request}.request")));
        let answer = solve(&catalogue, &request);
        let needed = (0..).find(|budget| solve_within(*budget, &catalogue, &request) != Err(Lack::GivenUp)).unwrap();
        assert!(needed > 0);
        for budget in [needed, needed + 1, u64::MAX] {
            assert_eq!(solve_within(budget, &catalogue, &request), answer);
        }
    }
}

#[test]
fn answers_eight_threads_at_once() {
    let (catalogue, request, report) = (example("wishes.catalogue"), example("wishes.request"), example("wishes.report"));
    std::thread::scope(|scope| {
        for _ in 0..8 {
            scope.spawn(|| {
                for _ in 0..100 {
                    assert_eq!(solve(&catalogue, &request).unwrap().text(), report);
                    assert_eq!(judge(&catalogue, &request, &report), Ok(Verdict::Yes));
                }
            });
        }
    });
}
