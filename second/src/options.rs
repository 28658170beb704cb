//! The words of the command line: `--name value`, `--name word word .. --`, and plain words.

/// Options that take all words up to `--`.
const MANY: [&str; 1] = ["driver"];

pub struct Options {
    named: Vec<(String, Vec<String>)>,
    pub plain: Vec<String>,
}

impl Options {
    pub fn of(arguments: impl IntoIterator<Item = String>) -> Result<Options, String> {
        let mut options = Options { named: Vec::new(), plain: Vec::new() };
        let mut words = arguments.into_iter();
        while let Some(word) = words.next() {
            let Some(name) = word.strip_prefix("--") else {
                options.plain.push(word);
                continue;
            };
            let values: Vec<String> = if MANY.contains(&name) {
                words.by_ref().take_while(|word| word != "--").collect()
            } else {
                words.by_ref().take(1).collect()
            };
            if values.is_empty() {
                return Err(format!("--{name} needs a value"));
            }
            options.named.push((name.to_string(), values));
        }
        Ok(options)
    }

    pub fn words(&self, name: &str) -> Option<&[String]> {
        self.named.iter().find(|(found, _)| found == name).map(|(_, values)| values.as_slice())
    }

    pub fn word(&self, name: &str) -> Option<&str> {
        self.words(name).map(|values| values[0].as_str())
    }

    pub fn number(&self, name: &str) -> Result<Option<u64>, String> {
        let parse = |word: &str| word.parse().map_err(|_| format!("--{name} needs a number, not {word}"));
        self.word(name).map(parse).transpose()
    }

    /// Refuses a name that the command does not know, so that a slip of the pen is not passed over.
    pub fn only(&self, known: &[&str]) -> Result<(), String> {
        match self.named.iter().find(|(name, _)| !known.contains(&name.as_str())) {
            Some((name, _)) => Err(format!("unknown option --{name}")),
            None => Ok(()),
        }
    }
}
