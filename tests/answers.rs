// A file of cases that `generate` wrote, and what `oracle batch` says of them.

/// Calls `f` with the name, the stream and the answer's lines of each case.
pub fn each(cases: &[u8], answers: &str, mut f: impl FnMut(&str, &[u8], &[&str])) {
    let mut lines = answers.lines().peekable();
    let mut rest = cases;
    while let Some(end) = rest.iter().position(|b| *b == b'\n') {
        let line = String::from_utf8_lossy(&rest[..end]).into_owned();
        let name = line.split(' ').nth(1).expect("a case has a name");
        let length: usize = line
            .rsplit(' ')
            .next()
            .and_then(|n| n.parse().ok())
            .expect("a case has a length");
        let (stream, behind) = rest[end + 1..].split_at(length);
        rest = behind;
        let head = lines.next().and_then(|l| l.strip_prefix("> "));
        assert_eq!(head, Some(name), "every case has an answer");
        let mut answer = Vec::new();
        while let Some(line) = lines.next_if(|l| !l.starts_with("> ")) {
            answer.push(line);
        }
        f(name, stream, &answer);
    }
}

/// The number that an answer ends with, 0 where the stream is accepted; none
/// for E 0, a stream longer than its case lends room for, and for E 20, a kind
/// table that is refused before the stream is looked at.
pub fn refusal(answer: &[&str]) -> Option<u32> {
    match answer.last().and_then(|l| l.strip_prefix("E ")) {
        Some("0" | "20") => None,
        Some(number) => Some(number.parse().expect("a refusal has a number")),
        None => Some(0),
    }
}
