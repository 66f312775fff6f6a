//! Whether a picture is well-formed XML, as far as the pictures go. Elements nest and are closed,
//! attributes are quoted and named once, and texts hold nothing that would need escaping.

/// The elements in the order they open, each with its attributes; panics where XML is broken.
pub fn elements(text: &str) -> Vec<(String, Vec<(String, String)>)> {
    let mut found = Vec::new();
    let mut open: Vec<String> = Vec::new();
    let mut rest = text.trim_end();
    while !rest.is_empty() {
        let Some(inside) = rest.strip_prefix('<') else {
            let (words, after) =
                rest.split_at(rest.find('<').expect("text after the last element"));
            assert!(!words.contains(['>', '&']), "not escaped: {words}");
            rest = after;
            continue;
        };
        let (tag, after) = inside.split_at(inside.find('>').expect("a tag without its end"));
        rest = &after[1..];
        assert!(!tag.contains('<'), "a tag in a tag: {tag}");
        if let Some(name) = tag.strip_prefix('/') {
            assert_eq!(open.pop().as_deref(), Some(name), "closed in the wrong order");
            assert!(!open.is_empty() || rest.is_empty(), "something after the root");
            continue;
        }
        let (tag, closed) = match tag.strip_suffix('/') {
            Some(tag) => (tag, true),
            None => (tag, false),
        };
        let (name, listed) = tag.split_once(' ').unwrap_or((tag, ""));
        assert!(!open.is_empty() || found.is_empty(), "a second root");
        found.push((name.to_string(), attributes(listed)));
        if !closed {
            open.push(name.to_string());
        }
    }
    assert!(open.is_empty(), "not closed: {open:?}");
    found
}

fn attributes(mut listed: &str) -> Vec<(String, String)> {
    let mut found: Vec<(String, String)> = Vec::new();
    while !listed.trim().is_empty() {
        let (name, after) = listed.trim_start().split_once("=\"").expect("not quoted");
        let (value, after) = after.split_once('"').expect("quotes not closed");
        assert!(name.chars().all(|letter| letter.is_ascii_alphanumeric() || letter == '-'));
        assert!(!value.contains(['<', '&']), "not escaped: {value}");
        assert!(found.iter().all(|(other, _)| other != name), "{name} twice");
        assert!(after.is_empty() || after.starts_with(' '), "no space after {name}");
        found.push((name.to_string(), value.to_string()));
        listed = after;
    }
    found
}

#[test]
fn the_check_itself() {
    let good = elements("<a b=\"1\" c-d=\"2\"><e/>text<f>more</f></a>\n");
    let names: Vec<&str> = good.iter().map(|(name, _)| name.as_str()).collect();
    assert_eq!(names, ["a", "e", "f"]);
    assert_eq!(good[0].1, [("b".into(), "1".into()), ("c-d".into(), "2".into())]);
    for broken in
        ["<a>", "<a></b>", "<a b=1/>", "<a b=\"1\"c=\"2\"/>", "<a/>x", "<a>&</a>", "<a/><b/>"]
    {
        assert!(std::panic::catch_unwind(|| elements(broken)).is_err(), "{broken}");
    }
}
