//! The reference library's console, followed line by line where a script depends on what was answered before.

use reference::console::Console;

/// A console in this process, in the state that a script has brought it to.
pub struct Model {
    console: Console,
    answer: Vec<u8>,
}

impl Model {
    /// The console as it starts.
    pub fn new() -> Self {
        Self {
            console: Console::new(),
            answer: Vec::new(),
        }
    }

    /// Carries out a line, given without its line feed; gives the answer without its own, empty for none.
    pub fn line(&mut self, line: &[u8]) -> String {
        self.answer.clear();
        self.console.line(line, &mut self.answer);
        let answer = self.answer.strip_suffix(b"\n").unwrap_or(&self.answer);
        String::from_utf8_lossy(answer).into_owned()
    }
}

#[cfg(test)]
mod tests {
    use super::*;

    #[test]
    fn the_model_answers_as_the_console_page_shows() {
        let mut model = Model::new();
        assert_eq!(model.line(b"probe 0 90"), "1");
        assert_eq!(model.line(b"governor 0"), "0 40A00000");
        assert_eq!(model.line(b"# nothing"), "");
    }
}
