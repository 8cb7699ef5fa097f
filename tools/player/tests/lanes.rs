//! Lines with several lanes: what the player reads beyond the program's lines, and what it prints for them.

use player::form::{parse, Form, Lines};
use player::play::play;

#[test]
fn the_program_has_no_such_lines() {
    for line in [
        "(start (slots 8) (tasks 1) (growth 0) (lanes 2))",
        "(begin 0 (lane 1) (pop left 0))",
        "(dispatch 0 1)",
        "(lane 1)",
    ] {
        assert_eq!(parse(line.as_bytes(), Lines::Belt), None, "{line}");
        assert!(
            parse(line.as_bytes(), Lines::SeveralLanes).is_some(),
            "{line}"
        );
    }
    for line in [
        "(start (slots 8) (tasks 1) (growth 0))",
        "(begin 0 (pop left 0))",
        "(tick 0 0 1)",
        "(lane)",
    ] {
        let form = parse(line.as_bytes(), Lines::Belt);
        assert!(
            form.is_some() && form == parse(line.as_bytes(), Lines::SeveralLanes),
            "{line}"
        );
    }
    let dispatch = |line: &str| parse(line.as_bytes(), Lines::SeveralLanes);
    assert_eq!(
        dispatch("(dispatch 3 1000)"),
        Some(Form::Dispatch {
            hint: 3,
            times: 1000
        })
    );
    assert_eq!(dispatch("(dispatch 3 1001)"), None);
    assert_eq!(dispatch("(dispatch 3 0)"), None);
}

#[test]
fn several_lanes() {
    let lines = "(start (slots 8) (tasks 2) (growth 0) (lanes 5))\n\
                 (lane 1)\n\
                 (start (slots 8) (tasks 2) (growth 0) (lanes 2))\n\
                 (begin 0 (lane 2) (pop left 0))\n\
                 (begin 0 (lane 1) (push right 0000000051))\n\
                 (begin 1 (lane 0) (push left 0000000051))\n\
                 (begin 1 (lane 0) (pop left 0))\n\
                 (dispatch 8 1)\n\
                 (dispatch 0 7)\n\
                 (dispatch 0 1000)\n\
                 (dispatch 0 1000)\n\
                 (dispatch 0 1000)\n\
                 (lane 0)\n\
                 (lane 1)\n";
    let printed =
        "(refused 25)\n(refused 3)\n(ok)\n(refused 26)\n(ok)\n(refused 16)\n(ok)\n(refused 9)\n\
                   (going)\n(empty)\n(pushed)\n(idle)\n(lane)\n(lane 0000000051)\n";
    assert_eq!(play(lines.as_bytes(), Lines::SeveralLanes).printed, printed);
}
