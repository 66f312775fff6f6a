//! The expectations are put together in this package, to work out each plan once only. Here they are held to
//! the second planner's own calls.

use outside::expected::Expected;
use second::make::{case, Case};

#[test]
fn expectations_are_those_of_the_second_planner() {
    for index in 0..4_000 {
        let Case { file, desk, buffer } = case(77, index);
        let expected = Expected::of(&file);
        let (mut one, mut other) = (buffer.clone(), buffer);
        let (here, there) = (expected.plan(&mut one), second::plan(&file, &mut other));
        assert_eq!(format!("{here:?}"), format!("{there:?}"), "index {index}");
        let (here, there) =
            (expected.blocks(desk, &mut one), second::blocks(&file, desk, &mut other));
        assert_eq!(format!("{here:?}"), format!("{there:?}"), "index {index}");
        assert_eq!(one, other, "index {index}");
    }
}
