//! The loud and the quiet drive of the benchmark: what each is there for, and that
//! player and twin agree on both.

use benchmark::drive::{Course, Drive};
use benchmark::setting::{Setting, Sizes, LOWER};

/// Outputs of a drive: full blocks of 3 and of 64.
const OUTPUTS: usize = 3 * 1024;

#[test]
fn loud_outputs_are_limited_and_quiet_ones_are_not() {
    for decimation in [10, 3, 0] {
        let sizes = Sizes {
            decimation,
            ..Sizes::default()
        };
        let loud = Setting::new(sizes).loud();
        let quiet = loud.divided(LOWER);
        for block in [3, 64, OUTPUTS] {
            let drive = Drive {
                course: Course::Around(1.5),
                block,
                outputs: OUTPUTS,
            };
            drive.compare(&loud);
            drive.compare(&quiet);
            let limited = drive.limited(&loud);
            assert!((OUTPUTS / 5..OUTPUTS / 2).contains(&limited), "{limited}");
            assert_eq!(drive.limited(&quiet), 0);
        }
    }
}

/// Both ends are met, and by a hum that reaches both ends itself.
#[test]
fn both_ends() {
    let loud = Setting::new(Sizes::default()).loud();
    for end in [i16::MIN, i16::MAX] {
        assert!(loud.samples.contains(&end));
    }
    let drive = Drive {
        course: Course::Around(1.5),
        block: OUTPUTS,
        outputs: OUTPUTS,
    };
    let mut out = vec![0; OUTPUTS];
    drive.play(&mut drive.player(), &loud, &mut out);
    for end in [i16::MIN, i16::MAX] {
        assert!(out.contains(&end));
    }
}
