//! The names that the papers have for the registers, those of source documents 001 and 004: what is shadowed says so, and the
//! index of an alert comes last: `CLASSA_CTRL_SHADOWED`, `ALERT_EN_SHADOWED_5`, `LOC_ALERT_CAUSE_2`.
use super::field::Field;
use super::register::{Register, LETTERS};
use super::setting::Setting;

/// Whose names of registers are shown.
#[derive(Clone, Copy, Debug, PartialEq, Eq)]
pub enum Naming {
    /// Those of documents 01 and 02.
    Ours,
    /// Those of the papers; where they have none, ours.
    Papers,
}

const SHADOWED: &str = "_SHADOWED";

/// A class's REGWEN is a field of its CTRL there.
const REGWEN: &str = "CTRL_SHADOWED.REGWEN";

fn marked(name: &str, is_shadowed: bool) -> String {
    let mark = if is_shadowed { SHADOWED } else { "" };
    format!("{name}{mark}")
}

fn source(field: Field) -> String {
    marked(field.name(), field.is_shadowed())
}

fn setting(setting: Setting) -> String {
    match setting {
        Setting::Regwen => REGWEN.to_string(),
        _ => marked(setting.name(), setting.is_shadowed()),
    }
}

fn name(register: Register) -> String {
    match register {
        Register::Local(field, j) => format!("LOC_ALERT_{}_{j}", source(field)),
        Register::Alert(field, i) => format!("ALERT_{}_{i}", source(field)),
        Register::Class(k, s) => format!("CLASS{}_{}", LETTERS[k], setting(s)),
        Register::IntrState | Register::IntrEnable | Register::IntrTest => register.to_string(),
        Register::PingRegwen | Register::PingTimeout | Register::PingEnable => {
            marked(&register.to_string(), register.is_shadowed())
        }
    }
}

impl Naming {
    /// The register's name.
    pub fn name(self, register: Register) -> String {
        match self {
            Naming::Ours => register.to_string(),
            Naming::Papers => name(register),
        }
    }
}

/// Our name for what the papers would name so.
fn ours(name: &str) -> Option<String> {
    let plain = name.replace(REGWEN, "REGWEN").replace(SHADOWED, "");
    for alert in ["LOC_ALERT", "ALERT"] {
        let rest = plain.strip_prefix(alert);
        if let Some(rest) = rest.and_then(|rest| rest.strip_prefix('_')) {
            let (field, index) = rest.rsplit_once('_')?;
            return Some(format!("{alert}{index}_{field}"));
        }
    }
    Some(plain)
}

impl Register {
    /// The register that the papers name so; whether an edition has that alert, its map says.
    pub fn named_in_papers(papers: &str) -> Option<Register> {
        let register = Register::named(&ours(papers)?)?;
        (name(register) == papers).then_some(register)
    }
}

#[cfg(test)]
mod tests {
    use super::super::{Register, MAP};
    use super::Naming::{Ours, Papers};

    #[test]
    fn registers_are_named_as_the_papers_have_them() {
        for (ours, papers) in [
            ("INTR_STATE", "INTR_STATE"),
            ("INTR_ENABLE", "INTR_ENABLE"),
            ("PING_TIMER_REGWEN", "PING_TIMER_REGWEN"),
            ("PING_TIMEOUT_CYC", "PING_TIMEOUT_CYC_SHADOWED"),
            ("PING_TIMER_EN", "PING_TIMER_EN"),
            ("LOC_ALERT0_REGWEN", "LOC_ALERT_REGWEN_0"),
            ("LOC_ALERT6_EN", "LOC_ALERT_EN_SHADOWED_6"),
            ("LOC_ALERT3_CLASS", "LOC_ALERT_CLASS_SHADOWED_3"),
            ("LOC_ALERT2_CAUSE", "LOC_ALERT_CAUSE_2"),
            ("ALERT0_REGWEN", "ALERT_REGWEN_0"),
            ("ALERT5_EN", "ALERT_EN_SHADOWED_5"),
            ("ALERT247_CLASS", "ALERT_CLASS_SHADOWED_247"),
            ("ALERT64_CAUSE", "ALERT_CAUSE_64"),
            ("CLASSA_REGWEN", "CLASSA_CTRL_SHADOWED.REGWEN"),
            ("CLASSA_CTRL", "CLASSA_CTRL_SHADOWED"),
            ("CLASSB_CLR_REGWEN", "CLASSB_CLR_REGWEN"),
            ("CLASSC_CLR", "CLASSC_CLR"),
            ("CLASSD_ACCUM_THRESH", "CLASSD_ACCUM_THRESH_SHADOWED"),
            ("CLASSA_TIMEOUT_CYC", "CLASSA_TIMEOUT_CYC_SHADOWED"),
            ("CLASSA_PHASE3_CYC", "CLASSA_PHASE3_CYC_SHADOWED"),
            ("CLASSA_STATE", "CLASSA_STATE"),
        ] {
            let register = Register::named(ours).expect(ours);
            assert_eq!(Papers.name(register), papers);
            assert_eq!(Ours.name(register), ours);
        }
    }

    /// Either name is of one register, and no name is of two.
    #[test]
    fn a_name_of_the_papers_gives_its_register() {
        for register in (0..=u16::MAX).filter_map(|n| MAP.register(n)) {
            let (ours, papers) = (Ours.name(register), Papers.name(register));
            assert_eq!(Register::named_in_papers(&papers), Some(register));
            let other = Register::named_in_papers(&ours);
            assert_eq!(other, (ours == papers).then_some(register), "{ours}");
            let other = Register::named(&papers);
            assert_eq!(other, (ours == papers).then_some(register), "{papers}");
        }
    }

    #[test]
    fn nothing_else_is_one() {
        for other in [
            "",
            "ALERT_EN_5",
            "ALERT_EN_SHADOWED",
            "ALERT_EN_SHADOWED_",
            "ALERT_EN_SHADOWED_05",
            "ALERT_EN_SHADOWED_-5",
            "ALERT_SHADOWED_EN_5",
            "ALERT_REGWEN_SHADOWED_5",
            "LOC_ALERT2_CAUSE_SHADOWED",
            "CLASSA_REGWEN",
            "CLASSA_REGWEN_SHADOWED",
            "CLASSA_CTRL.REGWEN",
            "CLASSA_CTRL_SHADOWED.EN",
            "CLASSA_CTRL_SHADOWED_SHADOWED",
            "CLASSE_CTRL_SHADOWED",
            "classa_ctrl_shadowed",
        ] {
            assert_eq!(Register::named_in_papers(other), None, "{other}");
        }
    }
}
