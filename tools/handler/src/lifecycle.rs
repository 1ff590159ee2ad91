//! The lifecycles that a boot is for: the columns of document 002's classification.

/// A lifecycle; as a number it is the one that the library takes.
#[derive(Clone, Copy, Debug, PartialEq, Eq)]
pub enum Lifecycle {
    /// RAW and TEST, which are one column.
    RawTest,
    /// PROD.
    Prod,
    /// PROD_END.
    ProdEnd,
    /// DEV.
    Dev,
    /// RMA.
    Rma,
    /// SCRAP.
    Scrap,
}

use Lifecycle::*;

impl Lifecycle {
    /// All, in the order of the columns.
    pub const ALL: [Lifecycle; 6] = [RawTest, Prod, ProdEnd, Dev, Rma, Scrap];

    /// The short words that name one, each with what it names.
    pub const NAMES: [(&'static str, Lifecycle); 7] = [
        ("RAW", RawTest),
        ("TEST", RawTest),
        ("PROD", Prod),
        ("PROD_END", ProdEnd),
        ("DEV", Dev),
        ("RMA", Rma),
        ("SCRAP", Scrap),
    ];

    /// The lifecycle of this short word, or of this head of a column, in any letter case.
    pub fn named(name: &str) -> Option<Lifecycle> {
        let heads = Lifecycle::ALL.map(|lifecycle| (lifecycle.name(), lifecycle));
        let mut names = Lifecycle::NAMES.into_iter().chain(heads);
        let found = names.find(|(word, _)| word.eq_ignore_ascii_case(name));
        found.map(|(_, lifecycle)| lifecycle)
    }

    /// The head of its column.
    pub fn name(self) -> &'static str {
        match self {
            RawTest => "RAW/TEST",
            Prod => "PROD",
            ProdEnd => "PROD_END",
            Dev => "DEV",
            Rma => "RMA",
            Scrap => "SCRAP",
        }
    }

    /// The number that the library takes.
    pub const fn number(self) -> u8 {
        self as u8
    }
}

#[cfg(test)]
mod tests {
    use super::*;

    #[test]
    fn each_has_its_number_and_its_names() {
        let numbers = Lifecycle::ALL.map(Lifecycle::number);
        assert_eq!(numbers, [0, 1, 2, 3, 4, 5]);
        for lifecycle in Lifecycle::ALL {
            let own = Lifecycle::NAMES.iter().filter(|(_, of)| *of == lifecycle);
            let own: Vec<&str> = own.map(|(name, _)| *name).collect();
            assert_eq!(own.join("/"), lifecycle.name());
        }
        for (name, number) in [
            ("raw", 0),
            ("Test", 0),
            ("raw/test", 0),
            ("pRoD_eNd", 2),
            ("SCRAP", 5),
        ] {
            assert_eq!(Lifecycle::named(name).map(Lifecycle::number), Some(number));
        }
        for name in ["", "RAW/", "TEST/RAW", "PROD END", "PROD_", " DEV", "1"] {
            assert_eq!(Lifecycle::named(name), None, "{name}");
        }
    }
}
