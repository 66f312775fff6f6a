//! Slots of a quarter-hour in words, and the marks on a time axis. Marks fall on quarters, hours
//! and days rather than on round numbers of slots.

/// A stretch of slots as hours and minutes.
pub fn length(slots: i64) -> String {
    match (slots / 4, slots % 4 * 15) {
        (0, minutes) => format!("{minutes} min"),
        (hours, 0) => format!("{hours} h"),
        (hours, minutes) => format!("{hours} h {minutes} min"),
    }
}

/// A moment in hours for an axis; quarters are written as a decimal.
pub fn hour(slot: i64) -> String {
    let quarter = ["", ".25", ".5", ".75"][(slot % 4) as usize];
    format!("{}{quarter}h", slot / 4)
}

/// Quarters, hours, a working day of eight hours, half days, days, weeks and so on.
const STEPS: [i64; 18] = [
    1, 2, 4, 8, 16, 32, 48, 96, 192, 672, 1344, 2688, 6720, 13_440, 26_880, 67_200, 134_400,
    268_800,
];

/// The moments to be marked from 0 up to the end, no more than asked for, so that their labels
/// have room. The start is always marked.
pub fn marks(end: i64, most: i64) -> Vec<i64> {
    let few_enough = |step: &i64| end / step < most.max(1);
    let step = STEPS.into_iter().find(few_enough).unwrap_or(end + 1);
    (0..=end / step).map(|count| count * step).collect()
}
