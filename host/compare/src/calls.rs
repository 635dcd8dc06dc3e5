//! The console's calls, and which of them a program lists in its `help` line.

/// First words of all calls (docs/CONSOLE.md, "Calls").
pub const CALLS: [&str; 18] = [
    "probe", "restart", "governor", "datalink", "lecom", "love", "lucid", "receive", "quiet", "save", "load",
    "request", "step", "ask", "reply", "poke", "peek", "help",
];

/// What stands before the list in a `help` line.
const LIST_MARK: &str = "calls: ";
/// What stands between two of its calls.
const LIST_SEPARATOR: &str = "; ";

/// The calls that take part in the scripts.
pub struct Listed {
    usages: Vec<String>,
}

impl Listed {
    /// Reads a `help` line with its line feed; none if it is no list of calls.
    pub fn read(help: &str) -> Option<Self> {
        let list = help.strip_prefix(LIST_MARK)?.strip_suffix('\n')?;
        Some(Self {
            usages: list.split(LIST_SEPARATOR).map(str::to_owned).collect(),
        })
    }

    /// Whether scripts may use a call.
    pub fn has(&self, call: &str) -> bool {
        self.usages.iter().any(|usage| usage.split(' ').next() == Some(call))
    }

    /// Whether these usages are all among the other's, in the same order.
    pub fn is_within(&self, other: &Self) -> bool {
        let mut others = other.usages.iter();
        self.usages
            .iter()
            .all(|usage| others.any(|candidate| candidate == usage))
    }
}

#[cfg(test)]
mod tests {
    use super::*;

    #[test]
    fn a_help_line_lists_its_calls() {
        let listed = Listed::read("calls: probe CHANNEL CODE; restart; help\n").unwrap();
        assert!(listed.has("probe"));
        assert!(listed.has("restart"));
        assert!(!listed.has("CHANNEL"));
        assert!(!listed.has("love"));
        assert!(Listed::read("error unknown call\n").is_none());
    }

    #[test]
    fn fewer_calls_in_the_same_order_lie_within() {
        let all = Listed::read("calls: probe CHANNEL CODE; restart; help\n").unwrap();
        let read = |help| Listed::read(help).unwrap();
        assert!(read("calls: restart; help\n").is_within(&all));
        assert!(read("calls: probe CHANNEL CODE; restart; help\n").is_within(&all));
        assert!(!read("calls: help; restart\n").is_within(&all));
        assert!(!read("calls: probe CHANNEL\n").is_within(&all));
        assert!(!read("calls: restart; restart\n").is_within(&all));
    }
}
