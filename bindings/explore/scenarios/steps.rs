//! How many steps each call makes at most.

/// Of each call that takes no lock: its steps on atomic words, and those of them on its place's word, which the crate's page promises. (The others
/// find the place by the key, and give it back. One on the place's word more than there is made by who drops the object.)
const MOST: [(&str, usize, usize); 14] = [
    ("get", 15, 5),
    ("get_owned", 16, 5),
    ("into_owned", 2, 1),
    ("clone", 1, 1),
    ("clone of an owned", 2, 1),
    ("release", 10, 3),
    ("release of an owned", 11, 3),
    ("clear", 18, 8),
    ("contains", 4, 1),
    ("publish", 1, 1),
    ("downgrade", 1, 1),
    ("downgrade of an owned", 1, 1),
    ("drop of a filling", 9, 3),
    ("drop of an owned filling", 10, 3),
];

/// Tells the most steps that calls of the scenarios made. An error where one made more than it may.
pub fn tell() -> Result<(), String> {
    for (name, most) in explorer::calls() {
        let explorer::Steps {
            atomic,
            on_a_word,
            locks,
        } = most;
        println!("     {name}: {atomic} steps on atomic words at most, {on_a_word} on one, {locks} locks");
        let promised = MOST.iter().find(|(promised, ..)| *promised == name);
        if promised.is_some_and(|(_, all, one)| atomic > *all || on_a_word > *one || locks > 0) {
            return Err(format!("{name} makes more than it may"));
        }
    }
    Ok(())
}
