//! The arguments, read as the library `clap` reads them: `--option VALUE` or `--option=VALUE`, each once, flags, and
//! `--`, behind which no option stands.

use crate::changes::Change;
use crate::documents::small_number;
use crate::refusal::Refusal;

/// What was found behind a command's name.
#[derive(Default)]
pub struct Found {
    pub number: Option<u32>,
    pub flag: Option<String>,
    pub changes: Vec<Change>,
}

impl Found {
    /// Adds what the words say of a command with this usage, such as `curve --upto P`.
    fn add(&mut self, usage: &str, words: &[String]) -> Option<()> {
        let takes = |what: &str| usage.split(' ').any(|part| part == what);
        let mut words = words.iter();
        while let Some(word) = words.next() {
            if !word.starts_with("--") {
                self.changes.push(Change::read(word.as_bytes()).filter(|_| takes("SEG=COST"))?);
            } else if word == "--" {
                let changes = words.by_ref().map(|word| Change::read(word.as_bytes()).filter(|_| takes("SEG=COST")));
                self.changes.extend(changes.collect::<Option<Vec<_>>>()?);
            } else if takes(&format!("[{word}]")) && self.flag.is_none() {
                self.flag = Some(word.clone());
            } else {
                let (name, value) = word.split_once('=').unwrap_or((word, ""));
                let value = if name == word { words.next()? } else { value };
                let is_first = usage.contains(&format!("{name} P")) && self.number.is_none();
                self.number = Some(small_number(value.as_bytes()).filter(|_| is_first)?);
            }
        }
        Some(())
    }
}

/// The command of these usages that is named first, or else the first of them, and what was found behind its name.
pub fn read_words<'a>(usages: &[&'a str], words: &[String]) -> Result<(&'a str, Found), Refusal> {
    let name_of = |usage: &'a str| usage.split(' ').next().unwrap_or(usage);
    let word = words.first().filter(|word| !word.is_empty());
    let named = usages.iter().find(|usage| word.map_or(false, |word| word == name_of(usage)));
    let behind = if named.is_some() { &words[1..] } else { words };
    let usage = named.unwrap_or(&usages[0]);
    let (name, mut found) = (name_of(usage), Found::default());
    found.add(usage, behind).ok_or(Refusal::WrongWords)?;
    let needs_number = usage.ends_with(" P") && named.is_some();
    let is_wrong = needs_number && found.number.is_none()
        || usage.contains("SEG=COST") && found.changes.is_empty() == found.flag.is_none();
    if is_wrong { Err(Refusal::WrongWords) } else { Ok((name, found)) }
}

#[cfg(test)]
mod tests {
    use super::read_words;

    fn read(words: &str) -> Option<(&'static str, Option<u32>, usize)> {
        let usages = [" --upto P", "span", "curve --upto P", "whatif SEG=COST [--listed]", "account [--rows] [--path]"];
        let words: Vec<String> = words.split_whitespace().map(String::from).collect();
        read_words(&usages, &words).ok().map(|(name, found)| (name, found.number, found.changes.len()))
    }

    #[test]
    fn words_of_each_kind() {
        let right = [
            ("", ("", None, 0)),
            ("--", ("", None, 0)),
            ("--upto 3", ("", Some(3), 0)),
            ("span --", ("span", None, 0)),
            ("curve --upto=003", ("curve", Some(3), 0)),
            ("curve --upto 4294967295 --", ("curve", Some(u32::MAX), 0)),
            ("whatif 2=4 01=05", ("whatif", None, 2)),
            ("whatif 0=18446744073709551615 -- 1=0", ("whatif", None, 2)),
            ("whatif --listed", ("whatif", None, 0)),
            ("account --rows", ("account", None, 0)),
        ];
        for (words, wanted) in right {
            assert_eq!(read(words), Some(wanted), "{words}");
        }
        let wrong = "shown|help|--help|3|span 1|-- span|--upto|--upto 3 span|--upto=3 --upto=3|curve|curve 3|\
            curve --upto|curve --upto +3|curve --upto 4294967296|curve --upto -- 3|curve --threads 3|whatif|whatif 2|\
            whatif 2=|whatif 2=4=5|whatif 0=18446744073709551616|whatif 2=4 2|whatif --listed 2=4|\
            whatif --listed --listed|whatif --|account --rows --path|account --row|account --rows=1|account -- --rows";
        for words in wrong.split('|') {
            assert_eq!(read(words), None, "{words}");
        }
    }
}
