//! The command lines of both benchmarks.

use std::path::PathBuf;

/// What a command line asks for. The library's benchmark takes the first two alone.
#[derive(Debug, Default, PartialEq, Eq)]
pub struct Options {
    /// Only rows whose names begin with one of these are measured; with none, all.
    pub only: Vec<String>,
    /// Where a chart is written.
    pub chart: Option<PathBuf>,
    /// The script that starts the desk program.
    pub script: Option<String>,
    /// Another desk program, from before a change.
    pub before: Option<String>,
    /// The second implementation's program.
    pub second: Option<String>,
    /// The desk program, with its arguments.
    pub desk: Vec<String>,
}

impl Options {
    /// Reads the words of a command line; none where one isn't understood.
    pub fn read(words: impl IntoIterator<Item = String>) -> Option<Options> {
        let mut options = Options::default();
        let mut words = words.into_iter();
        while let Some(word) = words.next() {
            match &word[..] {
                "--only" => options.only.push(words.next()?),
                "--chart" => options.chart = Some(words.next()?.into()),
                "--script" => options.script = Some(words.next()?),
                "--before" => options.before = Some(words.next()?),
                "--second" => options.second = Some(words.next()?),
                "--" => options.desk.extend(words.by_ref()),
                _ => return None,
            }
        }
        Some(options)
    }

    /// Whether no program is named: the library's benchmark has none.
    pub fn has_no_program(&self) -> bool {
        let programs = [&self.script, &self.before, &self.second];
        programs.into_iter().all(Option::is_none) && self.desk.is_empty()
    }

    /// Whether the row of this name is measured.
    pub fn wants(&self, name: &str) -> bool {
        self.only.is_empty() || self.only.iter().any(|words| name.starts_with(&words[..]))
    }
}

#[cfg(test)]
mod tests {
    use super::Options;

    fn read(line: &str) -> Option<Options> {
        Options::read(line.split(' ').map(str::to_string))
    }

    #[test]
    fn words_in_any_order() {
        let options =
            read("--second b --only W --chart c.svg --only F, -- a --flag").expect("read");
        assert_eq!(options.only, ["W", "F,"]);
        assert_eq!(options.second.as_deref(), Some("b"));
        assert_eq!(options.desk, ["a", "--flag"]);
        assert!(!options.has_no_program());
        let names = ["W, 1,000 digits", "F, 128 pairs", "a plan", "F"];
        assert_eq!(
            names.map(|name| options.wants(name)),
            [true, true, false, false]
        );
    }

    #[test]
    fn nothing_asked_for_is_all() {
        let options = Options::read([]).expect("nothing is understood");
        assert!(options.has_no_program() && options.wants("T"));
        assert_eq!(read("--only"), None);
        assert_eq!(read("--rounds 3"), None);
    }
}
