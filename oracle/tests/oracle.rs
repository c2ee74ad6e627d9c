//! The oracle itself: tables load back, both scales of time agree, planted faults are found, stored answers are current.

use oracle::answer::Answer;
use oracle::clock::Scale;
use oracle::dispatch;
use oracle::edges;
use oracle::generate::Generator;
use oracle::planted::{FAULTS, Faulty};
use oracle::profile::{PROFILES, Profile};
use oracle::script::{answers, answers_by, answers_of};
use oracle::world::World;

/// A random script as text. Some lines of the profile `lines` are no text, so it is left out where text is needed.
fn script(profile: Profile, seed: u64, calls: u64) -> String {
    let mut script = Vec::new();
    Generator::new(profile, seed).script(calls, |line, _| {
        script.extend_from_slice(line);
        script.push(b'\n');
    });
    String::from_utf8_lossy(&script).into_owned()
}

fn text_profiles() -> impl Iterator<Item = Profile> {
    PROFILES.into_iter().map(|(_, profile)| profile).filter(|&profile| profile != Profile::Lines)
}

#[test]
fn printed_tables_load_back() {
    for profile in text_profiles() {
        for seed in 0..4 {
            let all = answers(&script(profile, seed, 600));
            let start = all.rfind("put_counters").expect("a script ends with its tables");
            let printed = all[start..].strip_suffix("end\n").expect("tables end with end");
            let again = answers(&format!("{printed}tables\n"));
            let lines = printed.lines().count();
            assert_eq!(again, "ok\n".repeat(lines) + printed + "end\n", "{} {seed}", profile.name());
        }
    }
}

#[test]
fn both_scales_of_time_agree() {
    for profile in text_profiles() {
        for seed in 0..4 {
            let script = script(profile, seed, 1000);
            assert_eq!(answers(&script), answers_of(World::in_millis(), &script), "{} {seed}", profile.name());
        }
    }
}

/// The true microseconds are in use up to where they end, and no further.
#[test]
fn the_rust_counts_microseconds_as_far_as_it_can() {
    let mut world = World::default();
    let mut out = Answer::default();
    dispatch::line(&mut world, b"begin_discovery 0 9 18446744073709541 10", &mut out);
    assert!(world.scale == Scale::Micros);
    dispatch::line(&mut world, b"begin_discovery 0 9 18446744073709551 0", &mut out);
    assert!(world.scale == Scale::Micros);
    dispatch::line(&mut world, b"begin_discovery 0 9 18446744073709551 1", &mut out);
    assert!(world.scale == Scale::Millis);
    dispatch::line(&mut world, b"reset", &mut out);
    assert!(world.scale == Scale::Micros);
}

#[test]
fn every_profile_is_the_same_for_the_same_seed_and_has_as_many_calls_as_asked() {
    for (_, profile) in PROFILES {
        assert_eq!(script(profile, 7, 300), script(profile, 7, 300));
        assert_ne!(script(profile, 7, 300), script(profile, 8, 300));
        let text = script(profile, 7, 300);
        let calls = text.lines().filter(|line| !line.is_empty() && !line.starts_with('#')).count();
        assert_eq!(calls, 300, "{}", profile.name());
    }
}

/// Each misreading of document 01 shows in the answers to some script.
#[test]
fn planted_faults_are_found() {
    for (name, fault) in FAULTS {
        let found = text_profiles().any(|profile| {
            let script = script(profile, 1, 8000);
            let mut faulty = Faulty::new(fault);
            answers(&script) != answers_by(|line, out| faulty.line(line, out), &script)
        });
        assert!(found, "{name}");
    }
}

/// A planted fault changes answers, and not how many there are: one for each line that has one.
#[test]
fn planted_faults_answer_every_line_once() {
    let short = "begin_discovery\naccept_route_request 1\nbegin_many_to_one_advertisement\n";
    let script = script(Profile::Lines, 1, 8000) + &script(Profile::Full, 1, 8000) + short;
    let passed_over = |line: &&str| line.is_empty() || line.starts_with('#');
    let calls = script.trim_end().split('\n').filter(|line| !passed_over(line)).count();
    for (name, fault) in FAULTS {
        let mut faulty = Faulty::new(fault);
        let told = answers_by(|line, out| faulty.line(line, out), &script);
        assert_eq!(told.lines().filter(|line| !line.starts_with("put_")).count(), calls, "{name}");
    }
}

/// The profiles together reach every refusal that a script can bring about.
#[test]
fn every_refusal_is_reached() {
    let all: String = text_profiles().map(|profile| answers(&script(profile, 3, 4000))).collect();
    for number in [1, 2, 3, 4, 5, 6, 7, 8, 10, 11] {
        assert!(all.contains(&format!("refuse {number}\n")), "refuse {number}");
    }
    assert!(!all.contains("refuse 9\n"));
}

/// How many rows stand in the tables of routes, discoveries, records and neighbours.
fn rows(world: &World) -> [usize; 4] {
    let routing = &world.routing;
    [
        routing.peek_routes().len(),
        routing.peek_discoveries().len(),
        routing.peek_records().len(),
        world.neighbors.peek_table().len(),
    ]
}

/// The first of the refusals 1 to 4 that a state gives reason for.
fn too_many(world: &World) -> Option<usize> {
    let capacities = [64, 32, 64, 64];
    (0..4).find(|&table| rows(world)[table] > capacities[table]).map(|table| table + 1)
}

/// Refusals 1 to 4 are given exactly when the Rust's own tables, left to grow, would pass the capacity.
#[test]
fn room_is_refused_exactly_when_the_rust_would_grow_past_it() {
    let mut refused = [0; 5];
    for seed in 0..6 {
        let (mut world, mut out) = (World::default(), Answer::default());
        for line in script(Profile::Full, seed, 5000).lines() {
            out.text.clear();
            dispatch::line(&mut world, line.as_bytes(), &mut out);
            assert_eq!(too_many(&world), None, "{line}");
            let number = (1..=4).find(|n| out.text == format!("refuse {n}\n").as_bytes());
            let Some(number) = number else { continue };
            // The refused call again, on a copy whose tables may grow.
            let (mut copy, mut copied) = (World { limitless: true, ..World::default() }, Answer::default());
            out.text.clear();
            dispatch::line(&mut world, b"tables", &mut out);
            for row in out.text.split(|&b| b == b'\n') {
                dispatch::line(&mut copy, row, &mut copied);
            }
            dispatch::line(&mut copy, line.as_bytes(), &mut copied);
            assert_eq!(too_many(&copy), Some(number), "{line}");
            refused[number] += 1;
        }
    }
    assert!(refused[1..].iter().all(|&count| count > 20), "{refused:?}");
}

#[test]
fn stored_answers_are_the_rusts() {
    let scripts = concat!(env!("CARGO_MANIFEST_DIR"), "/../scripts");
    let mut seen = 0;
    for file in std::fs::read_dir(scripts).expect("scripts/ stands beside oracle/") {
        let path = file.expect("readable").path();
        if path.extension().is_some_and(|extension| extension == "txt") {
            let read = |path: &std::path::Path| std::fs::read_to_string(path).expect("readable");
            assert_eq!(answers(&read(&path)), read(&path.with_extension("answers")), "{}", path.display());
            seen += 1;
        }
    }
    assert!(seen >= 12);
    assert_eq!(std::fs::read_to_string(format!("{scripts}/edges.txt")).expect("readable"), edges::script());
}
