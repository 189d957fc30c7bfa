use gezmulda::{check, play, End, Engine, Played};

const AVERAGE: &str = "network 1;\ntemplate main(): Int ~> Int = ((iPre 0 &&& identity) >>> arr (before, reading) => ((before + reading) div 2));\n";

fn played(end: End, lines: &str) -> Played {
    Played {
        end,
        lines: lines.to_owned(),
    }
}

#[test]
fn all_lines_are_played() {
    let wanted = played(End::Done, "> 0 5\n> 20 15\n> 40 25\n");
    assert_eq!(play(AVERAGE, "0 10\n20 20\n20 30\n", false), wanted);
}

#[test]
fn a_life_is_kept_and_returned_to() {
    let input = "0 10\nsave here\n20 20\nback here\n30 40\n";
    let wanted = played(End::Done, "> 0 5\n> 20 15\n> 30 25\n");
    assert_eq!(play(AVERAGE, input, false), wanted);
}

#[test]
fn readings_are_given_where_they_are_asked_for() {
    let net = "network 1;\ntemplate main(): Int ~> Int = (probe level >>> arr x => (2 * x));\n";
    assert_eq!(
        play(net, "0 1\n", true),
        played(End::Done, "? level 1\n> 0 2\n")
    );
    assert_eq!(play(net, "0 1\n", false), played(End::Done, "> 0 2\n"));
}

#[test]
fn a_fault_and_a_refused_line_end_a_run() {
    let net = "network 1;\ntemplate main(): Int ~> Int = arr x => (10 div x);\n";
    assert_eq!(
        play(net, "0 5\n1 0\n1 2\n", false),
        played(End::Fault, "> 0 2\n! 1 DivideByZero\n")
    );
    assert_eq!(
        play(net, "0 5\n1 x\n", false),
        played(End::BadLine, "> 0 2\n! line 2 BadValue\n")
    );
}

#[test]
fn a_network_is_refused() {
    assert_eq!(
        play("network 1;\n", "0 10\n", false),
        played(End::Refused, "")
    );
    assert_eq!(play("", "", false), played(End::Refused, ""));
}

#[test]
fn a_refusal_names_a_rule_and_a_place() {
    assert_eq!(check(AVERAGE), Ok(()));
    assert_eq!(
        check("network 1;\ntemplate main(): Int ~> Bool = identity;\n"),
        Err("C4 Mismatch 2:32".to_owned())
    );
    assert_eq!(check("network 1;\n"), Err("C7 NoMain 1:1".to_owned()));
    assert_eq!(check("network 1"), Err("P1 Unexpected 1:10".to_owned()));
}

#[test]
fn a_room_that_is_too_small_is_made_larger() {
    let net = "network 1;\ntemplate main(): Unit ~> Text = constant \"a text that is far longer than its line\";\n";
    let wanted: String = (0..1000)
        .map(|at| format!("> {at} \"a text that is far longer than its line\"\n"))
        .collect();
    let input = format!("0 ()\n{}", "1 ()\n".repeat(999));
    assert_eq!(play(net, &input, false), played(End::Done, &wanted));
}

#[test]
fn threads_play_side_by_side() {
    let input: String = std::iter::once("0 1\n".to_owned())
        .chain((1..2000).map(|n| format!("1 {n}\n")))
        .collect();
    let alone = play(AVERAGE, &input, false);
    let runs: Vec<_> = (0..4)
        .map(|_| {
            let input = input.clone();
            std::thread::spawn(move || play(AVERAGE, &input, false))
        })
        .collect();
    for run in runs {
        assert_eq!(run.join().unwrap(), alone);
    }
}

#[test]
fn two_engines_are_fed_by_turns() {
    let (mut one, mut other) = (average(), average());
    assert_eq!(one.feed("0 10\n"), "> 0 5\n");
    assert_eq!(other.feed("0 100\n"), "> 0 50\n");
    assert_eq!(one.feed("20 20\n"), "> 20 15\n");
    assert_eq!(other.feed("20 200\n"), "> 20 150\n");
    assert_eq!((one.end(), other.end()), (None, None));
}

#[test]
fn an_engine_goes_back_to_what_it_kept() {
    let (mut one, mut other) = (average(), average());
    assert_eq!(one.feed("0 10\nsave here\n20 20\n"), "> 0 5\n> 20 15\n");
    assert_eq!(other.feed("0 100\n"), "> 0 50\n");
    assert_eq!(one.feed("back here\n30 40\n"), "> 30 25\n");
    assert_eq!(other.feed("back here\n"), "! line 2 NoSave\n");
    assert_eq!((one.end(), other.end()), (None, Some(End::BadLine)));
}

#[test]
fn an_engine_plays_a_line_once_it_is_complete() {
    let mut engine = average();
    assert_eq!(engine.feed("0 1"), "");
    assert_eq!(engine.feed("0\n20 2"), "> 0 5\n");
    assert_eq!(engine.feed("0\n"), "> 20 15\n");
}

#[test]
fn the_last_line_of_an_engine_needs_no_line_feed() {
    let mut engine = average();
    assert_eq!(engine.feed("0 10\n20 20"), "> 0 5\n");
    assert_eq!(engine.finish(), "> 20 15\n");
    assert_eq!(engine.end(), Some(End::Done));
    assert_eq!(engine.feed("20 30\n"), "");
    assert_eq!(engine.finish(), "");
    assert_eq!(engine.end(), Some(End::Done));
}

#[test]
fn the_last_line_of_an_engine_may_be_refused() {
    let mut engine = average();
    assert_eq!(engine.feed("0 10\n20 x"), "> 0 5\n");
    assert_eq!(engine.finish(), "! line 2 BadValue\n");
    assert_eq!(engine.end(), Some(End::BadLine));
}

#[test]
fn nothing_comes_behind_the_end_of_an_engine() {
    let net = "network 1;\ntemplate main(): Int ~> Int = arr x => (10 div x);\n";
    let mut engine = Engine::new(net, false).unwrap();
    assert_eq!(engine.feed("0 5\n1 0\n1 2\n"), "> 0 2\n! 1 DivideByZero\n");
    assert_eq!(engine.feed("1 2\n"), "");
    assert_eq!(engine.end(), Some(End::Fault));
}

#[test]
fn an_engine_gives_readings_where_they_are_asked_for() {
    let net = "network 1;\ntemplate main(): Int ~> Int = (probe level >>> arr x => (2 * x));\n";
    let mut engine = Engine::new(net, true).unwrap();
    assert_eq!(engine.feed("0 1\n"), "? level 1\n> 0 2\n");
}

#[test]
fn no_engine_is_made_of_a_refused_network() {
    assert_eq!(
        Engine::new("network 1;\n", false).err(),
        check("network 1;\n").err()
    );
}

#[test]
fn an_engine_says_what_play_says() {
    let lines: Vec<String> = (0..2000).map(|n| format!("{} {n}\n", n.min(1))).collect();
    let mut engine = average();
    let said: String = lines.iter().map(|line| engine.feed(line)).collect();
    assert_eq!(
        play(AVERAGE, &lines.concat(), false),
        played(End::Done, &said)
    );
}

fn average() -> Engine {
    Engine::new(AVERAGE, false).unwrap()
}
