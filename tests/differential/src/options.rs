//! What the command line asks.

const SEED: u64 = 1;

#[derive(PartialEq, Eq, Debug)]
pub struct Options {
    pub seed: u64,
    /// How long the rounds go on; without it a fixed number is run.
    pub seconds: Option<u64>,
}

impl Options {
    /// `None` where a word is not understood.
    pub fn read(mut words: impl Iterator<Item = String>) -> Option<Options> {
        let mut options = Options {
            seed: SEED,
            seconds: None,
        };
        while let Some(word) = words.next() {
            let number = words.next()?.parse().ok()?;
            match word.as_str() {
                "--seed" => options.seed = number,
                "--seconds" => options.seconds = Some(number),
                _ => return None,
            }
        }
        Some(options)
    }
}

#[cfg(test)]
mod tests {
    use super::{Options, SEED};

    fn read(line: &str) -> Option<Options> {
        Options::read(line.split_whitespace().map(String::from))
    }

    #[test]
    fn both_options_are_read() {
        let seed = SEED;
        let seconds = None;
        assert_eq!(read(""), Some(Options { seed, seconds }));
        let seconds = Some(60);
        assert_eq!(
            read("--seconds 60 --seed 7"),
            Some(Options { seed: 7, seconds })
        );
    }

    #[test]
    fn other_words_are_refused() {
        for line in ["--seed", "--seed x", "--other 3", "7"] {
            assert_eq!(read(line), None);
        }
    }
}
