//! What include/gossip.h says of each function: the questions that it asks, and the slices that it may write.

const HEADER: &str = include_str!("../../include/gossip.h");

pub struct Function {
    pub name: &'static str,
    /// The numbers that it answers, 0 among them.
    pub numbers: Vec<u64>,
    /// The slices that it is not only read from.
    pub written: Vec<&'static str>,
}

/// `1, 4 to 11` as numbers.
fn numbers(list: &str) -> Vec<u64> {
    let mut all = vec![0];
    for part in list.split(", ") {
        let ends: Vec<u64> = part.split(" to ").filter_map(|n| n.parse().ok()).collect();
        if let (Some(first), Some(last)) = (ends.first(), ends.last()) {
            all.extend(*first..=*last);
        }
    }
    all
}

/// The questions that a comment begins with: `Question 1.`, `Questions 1, 4 to 11.`
fn questions(comment: &str) -> Vec<u64> {
    let text = comment.trim_start_matches("/* ");
    let list = text.strip_prefix("Questions ").or(text.strip_prefix("Question ")).unwrap_or("");
    numbers(list.split(['.', ';']).next().unwrap_or(""))
}

/// The names of the parameters that are pointers to what may be written.
fn written(parameters: &'static str) -> Vec<&'static str> {
    let pointers = parameters.split(',').map(str::trim).filter(|p| p.contains('*') && !p.starts_with("const"));
    pointers.filter_map(|p| p.rsplit('*').next()).collect()
}

/// Every function of the network, each behind its comment; a stream of the caller's own is none.
pub fn functions() -> Vec<Function> {
    let parts = HEADER.split("\n\n").filter(|part| !part.contains("GossipStream"));
    let declared = parts.filter_map(|part| Some((part, part.find("\nstruct Gossip").filter(|at| part[*at..].contains(" gossip_"))?)));
    declared
        .map(|(part, at)| {
            let (_, after) = part[at..].split_once(" gossip_").expect("a function");
            let (name, rest) = after.split_once('(').expect("its parameters");
            let comment = &part[part[..at].rfind("/*").expect("a comment")..at];
            Function { name, numbers: questions(comment), written: written(rest.split(')').next().unwrap_or("")) }
        })
        .collect()
}
